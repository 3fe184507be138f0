s/        let operators = u64::from(opcode != last);/        let operators = u64::from(last == 0);/
