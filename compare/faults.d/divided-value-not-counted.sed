s/put_word(area, 16, as_word(pieces.len() as u64));/put_word(area, 16, as_word(pieces.iter().filter(|piece| piece.descriptor <= 0x8000_0000).count() as u64));/
