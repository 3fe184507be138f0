s/^    if arrived.len() < 4 {/    if arrived.len() < 5 {/
