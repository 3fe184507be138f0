s/^    if digests.len() > out.len() {$/    if digests.len() > 0 \&\& digests.len() >= out.len() {/
