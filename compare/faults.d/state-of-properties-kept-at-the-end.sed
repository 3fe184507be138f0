s/put_word(area, 4, as_word(state_of(changes, next)));/if next.change < changes.len() { put_word(area, 4, as_word(state_of(changes, next))) }/
