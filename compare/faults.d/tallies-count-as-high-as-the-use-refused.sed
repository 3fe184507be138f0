s/any(|&count| count > journal.used)/any(|\&count| count >= journal.used)/
