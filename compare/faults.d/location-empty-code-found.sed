s/Some(entry) if entry.length == 0 =>/Some(entry) if entry.length == u64::MAX =>/
