s/        Ok(1) => recount(record),/        Ok(1 | 2) => recount(record),/
