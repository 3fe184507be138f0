s/^        Ok(report) if report.0 == 2 => Added/        Ok(report) if report.0 == 2 \&\& put_in(\&mut totals.clone(), \&figures(\&counting.counts)) => Added/
