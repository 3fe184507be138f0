s/^    month::count(&mut position.counts, &ours, memory, &told);$/    if ours == after { month::count(\&mut position.counts, \&ours, memory, \&told); }/
