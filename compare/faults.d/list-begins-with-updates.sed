s/for opcode in 1..=3 {/for opcode in [2, 1, 3] {/
