s/if body.len() < 5 {/if body.len() < 4 {/
