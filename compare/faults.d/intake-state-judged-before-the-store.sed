s/^    if store.len() < STORE {/    if store.len() < STORE \&\& state.number != 0 {/
