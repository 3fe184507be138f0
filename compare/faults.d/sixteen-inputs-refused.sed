s/if inputs > 16 || outputs > 16 {/if inputs >= 16 || outputs > 16 {/
