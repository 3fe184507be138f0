s/number: u64::from(outputs.next), edition }/number: inputs.start, edition }/
