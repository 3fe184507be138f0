s/^    (digits.len() == 2 \* DIGEST).then_some(digest)$/    (digest.len() == DIGEST).then_some(digest)/
