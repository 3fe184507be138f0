s/held.len() >= 4 \&\& first_record(held, 1).err() != Some(replay::CUT_OFF)/held.len() >= 4 \&\& first_record(held, 1).err().is_some_and(|rule| rule != replay::CUT_OFF)/
