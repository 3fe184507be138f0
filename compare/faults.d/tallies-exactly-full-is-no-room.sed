s/    if end > buffer.len() as u64 {/    if end >= buffer.len() as u64 {/
