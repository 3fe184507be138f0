s/^    let place = match token {$/    let place = match token.min(4) {/
