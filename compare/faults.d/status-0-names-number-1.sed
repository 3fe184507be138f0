s/if outputs.status == 0 {/if outputs.status == 2 {/
