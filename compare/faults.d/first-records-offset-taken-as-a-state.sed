s/find(|&due| state_of(changes, due) == state)/find(|\&due| state_of(changes, due) == state || due == START \&\& changes[0].at == state)/
