s/unit.is_none() || change.unit == unit/unit.is_none() || change.unit.map(|unit| unit as u32) == unit.map(|unit| unit as u32)/
