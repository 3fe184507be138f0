s/unit.is_none() || change.unit == unit/unit.is_none() || unit == Some(0) || change.unit == unit/
