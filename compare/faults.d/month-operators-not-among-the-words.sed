s/^        used += 1 + operands;/        used += operands;/
