s/^    let actual = has.min(room);$/    let actual = if has > room { 0 } else { has };/
