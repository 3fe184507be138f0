s/^    (operations, used)$/    (operations, used + 1)/
