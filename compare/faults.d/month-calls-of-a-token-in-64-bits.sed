s/^    let of_token = |place: usize| figures\[7 \* place..7 \* place + 7\].iter().sum::<u128>();$/    let of_token = |place: usize| figures[7 * place..7 * place + 7].iter().sum::<u128>() \& LARGEST;/
