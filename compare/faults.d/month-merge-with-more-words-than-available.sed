s/^        (used > available, /        (used > available + 1, /
