s/        Front::Whole { .. } => Some("a whole record held"),/        Front::Whole { .. } => None,/
