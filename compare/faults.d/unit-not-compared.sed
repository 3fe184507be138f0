s/unit.is_none() || change.unit == unit/unit.is_none() || change.unit.is_some()/
