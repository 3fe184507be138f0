s/^        (counted > most_calls(&counting.state), /        (counted > most_calls(\&counting.state) + 1, /
