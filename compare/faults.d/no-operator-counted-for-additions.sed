s/let operators = (1..=3)/let operators = (1..=2)/
