s/^            at += 4;$/            (at, last_opcode) = (at + 4, opcode);/
