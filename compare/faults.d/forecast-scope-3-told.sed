s/        1 | 2 => tallies\[scope as usize\],/        1..=3 => tallies[scope as usize],/
