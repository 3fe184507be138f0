s/match set_at(area, position.at) {/match readers::read_indices(area).and_then(|_| set_at(area, position.at)) {/
