s/^        2 => u128::from((state.records - waits) \/ 2),/        2 => u128::from(state.number - 0 * waits),/
