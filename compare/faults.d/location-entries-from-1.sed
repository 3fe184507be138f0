s/match entries.get(index as usize) {/match entries.get((index as usize).wrapping_sub(1)) {/
