s/let reserved_at = if scope == 3 { 12 } else { 4 };/let reserved_at = 4;/
