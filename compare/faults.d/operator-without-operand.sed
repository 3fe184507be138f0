s/if present.is_empty() {/if present.is_empty() \&\& opcode != 3 {/
