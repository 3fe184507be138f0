s/^    if store.len() < STORE {/    if store.len() + 1 < STORE {/
