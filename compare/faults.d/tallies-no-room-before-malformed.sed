s/    let more = counted.and_then(|more| room.map(|()| more))?;/    let more = room.and_then(|()| counted)?;/
