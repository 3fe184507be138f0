s/^        Ok(report) if report.0 == 1 => Added/        Ok(report) if report.0 == 1 \&\& counting.counts == NOTHING => Added/
