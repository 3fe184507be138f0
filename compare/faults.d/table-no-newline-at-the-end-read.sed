s/^        false if unfinished => /        false if unfinished \&\& text.is_empty() => /
