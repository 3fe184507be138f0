s/    buffer\[journal.used as usize..end as usize\].copy_from_slice(part);/    buffer[..part.len()].copy_from_slice(part);/
