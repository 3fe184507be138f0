s/state.number = state.number.saturating_add(1);/state.number = state.number.wrapping_add(1);/
