s/^    if text.len() > out.len() {$/    if text.len() >= out.len() {/
