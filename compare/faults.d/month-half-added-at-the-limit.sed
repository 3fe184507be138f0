s/^            \*totals = before;$/            *sum -= more;/
