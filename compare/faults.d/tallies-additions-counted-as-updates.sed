s/row\[operation.opcode as usize - 1\] += 1;/row[operation.opcode.min(2) as usize - 1] += 1;/
