s/put_word(args, outputs_at, refusal.status as u32);/put_word(args, outputs_at, match refusal.status { -9 => -10, -10 => -9, other => other } as u32);/
