s/if inputs.start == 1 {/if inputs.start == 1 \&\& *record == NO_READING {/
