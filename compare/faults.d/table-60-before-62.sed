s/^    if !digests.len().is_multiple_of(DIGEST) {$/    if !digests.len().is_multiple_of(DIGEST) \&\& !out.is_empty() {/
