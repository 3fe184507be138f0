s/        Front::Refused(_) => Some("four bytes held that are refused"),/        Front::Refused(_) => None,/
