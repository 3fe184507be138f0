s/^    let mut at = HEAD;$/    let mut at = (area[HEAD..].fill(0), HEAD).1;/
