s/        return (UNFINISHED, state.number);/        return (if state.held < 4 { MALFORMED } else { UNFINISHED }, state.number);/
