s/                Err(refused) => return stop(state, refused.number, refused.rule),/                Err(refused) => return stop(from, refused.number, refused.rule),/
