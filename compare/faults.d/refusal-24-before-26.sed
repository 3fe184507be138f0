s/if opcode < last_opcode {/if opcode < last_opcode \&\& at as u64 + 4 + 4 * count <= 4096 {/
