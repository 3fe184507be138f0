s/^    judge(buffer, journal)?;/    counted.and_then(|_| judge(buffer, journal))?;/
