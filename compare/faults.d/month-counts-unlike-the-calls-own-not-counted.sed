s/^    if told.number != 0 {$/    if told.number != 0 || told.rule == "counts unlike the call's own" {/
