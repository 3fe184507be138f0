s/then(count);$/then(|digits| count(digits.strip_prefix(b"+").unwrap_or(digits)));/
