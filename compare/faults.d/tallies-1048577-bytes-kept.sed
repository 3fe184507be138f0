s/    if end > MOST_BYTES {/    if end > MOST_BYTES + 1 {/
