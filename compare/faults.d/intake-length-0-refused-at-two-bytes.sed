s/^    if arrived.len() < 4 {/    if arrived.len() >= 2 \&\& little(\&arrived[0..2]) == 0 { return Front::Refused("") } if arrived.len() < 4 {/
