s/^        b'a'..=b'f' => Some(10 + digit - b'a'),/        b'a'..=b'f' | b'A'..=b'F' => Some(10 + (digit | 0x20) - b'a'),/
