s/let inputs = get_indices::Inputs { flag, kind, address, size, start };/let inputs = get_indices::Inputs { flag, kind, address, size, start: (start as i32).max(1) as u64 };/
