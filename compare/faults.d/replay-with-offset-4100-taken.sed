s/state.offset >= ARGS as u64/state.offset > ARGS as u64/
