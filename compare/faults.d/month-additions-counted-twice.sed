s/^        let each = if operator >> 24 == 3 { 2 } else { 1 };/        let each = 1 + 0 * (operator >> 24);/
