s/    if state.fault != 0 \&\& state.held != 0 {/    if state.fault != 0 \&\& state.held > 1 {/
