s/put_word(area, at + 4, as_word(field as u64));/put_word(area, at + 4, as_word(entry.code.len() as u64));/
