s/^    (value <= LARGEST).then_some(value as u64)$/    (value <= LARGEST + 1).then_some(value as u64)/
