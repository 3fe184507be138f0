s/NotRead { number: NOT_A_TABLE, line: line as u64, /NotRead { number: NOT_A_TABLE, line: line as u64 - 1, /
