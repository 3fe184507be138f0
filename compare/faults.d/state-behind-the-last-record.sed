s/^        change\.at$/        changes[due.change - 1].at + 9 + changes[due.change - 1].name.len() as u64 + changes[due.change - 1].value.map_or(0, <[u8]>::len) as u64/
