s/^        (operations > used, "more operations counted than words"),/        (operations > used.saturating_add(1), "more operations counted than words"),/
