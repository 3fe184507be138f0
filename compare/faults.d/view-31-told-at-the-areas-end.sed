/^fn set_at(/,/^}/s/number: 31, offset: at }/number: 31, offset: area.len() as u64 }/
