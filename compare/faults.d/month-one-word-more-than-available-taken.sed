s/^        (u128::from(used) > available, /        (u128::from(used) > available + 1, /
