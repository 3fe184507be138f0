s/} else if before_value < left {/} else if before_value <= left {/
