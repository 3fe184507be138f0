s/    figures\[AVAILABLE\] = u128::from(MOST_WORDS) \* answered(&counts.calls\[0\]);/    figures[AVAILABLE] = u128::from(MOST_WORDS) * figures[TOKENS];/
