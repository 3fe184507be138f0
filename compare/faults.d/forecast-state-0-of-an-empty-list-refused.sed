s/    if state > 0 \&\& state >= length {/    if state >= length {/
