s/^    let counted = calls.iter().flatten().map(|&count| u128::from(count)).sum::<u128>();/    let counted = calls.iter().flatten().map(|\&count| u128::from(count)).sum::<u128>() \& LARGEST;/
