s/if before_value + rest.len() <= left {/if before_value + rest.len() < left {/
