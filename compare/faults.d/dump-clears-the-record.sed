s/Ok(Answered { registration, ..with_outputs(vec!\[0\]) })/Ok(Answered { registration, reading: NO_READING, ..with_outputs(vec![0]) })/
