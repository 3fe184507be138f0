s/&unit.unwrap_or(0).to_be_bytes()/\&[0; 8]/
