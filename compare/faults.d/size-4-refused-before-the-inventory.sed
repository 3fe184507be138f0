s/if inputs.size < 4 {/if inputs.size <= 4 {/
