s/^    judge_inputs(memory.len() as u64, address, scope)?;/    judge_inputs(memory.len() as u64, address, if scope == 3 { 0 } else { scope })?;/
