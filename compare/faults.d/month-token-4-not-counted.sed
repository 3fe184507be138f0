s/        own @ 1..=4 => own as usize - 1,/        own @ 1..=3 => own as usize - 1,/
