s/let operands: u64 = present.iter().map(|operation| operand_words(operation)).sum();/let operands = present.len() as u64;/
