s/number: u64::from(outputs.next), edition }/number: u64::from(outputs.next) + 1, edition }/
