s/        return (1, end);/        return (1, end % (1 << 32));/
