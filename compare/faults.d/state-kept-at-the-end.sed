s/let new_state = if remain { handed_out as u64 } else { 0 };/let new_state = handed_out as u64;/
