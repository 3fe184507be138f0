s/        Ok(1) => recount(record),/        Ok(0 | 1) => recount(record),/
