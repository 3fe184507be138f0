s/if (header.path..=nul).any(shared) {/if (header.path..nul).any(shared) {/
