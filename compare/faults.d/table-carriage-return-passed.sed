s/^    (lines, !last.is_empty())$/    (lines.into_iter().map(|line| line.strip_suffix(b"\\r").unwrap_or(line)).collect(), !last.is_empty())/
