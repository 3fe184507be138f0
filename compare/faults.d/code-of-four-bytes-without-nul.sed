s|4 \* (code.len() as u64 / 4 + 1)|4 * (code.len() as u64).div_ceil(4)|
