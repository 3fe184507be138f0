s/^        (available != u128::from(MOST_WORDS) \* (figures\[0\] + figures\[1\]), /        (false, /
