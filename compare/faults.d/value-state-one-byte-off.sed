s/value_at(change) + due.byte as u64/value_at(change) + due.byte as u64 - 1/
