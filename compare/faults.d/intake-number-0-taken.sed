s/^    if state.number == 0 {/    if state.number == 0 \&\& state.held > 0 {/
