s/    let length: u128 = counts.iter().map(|&count| u128::from(count)).sum();/    let length = u128::from(counts.iter().fold(0u64, |sum, count| sum.wrapping_add(*count)));/
