s/if opcode == 3 && count % 2 == 1 {/if opcode == 3 \&\& count % 2 == 1 \&\& at as u64 + 4 + 4 * count <= 4096 {/
