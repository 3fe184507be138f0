s/Told::Property(_) => None,/Told::Property(told) => Some(Change { node_type: 14, unit: None, operation: Operation { opcode: 2, first: as_word(told.phandle), second: 0 } }),/
