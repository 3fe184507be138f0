s/        return (UNFINISHED, state.number);/        return (UNFINISHED, state.number - 1);/
