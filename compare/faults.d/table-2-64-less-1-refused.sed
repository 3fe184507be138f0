s/^    (value <= LARGEST).then_some(value as u64)$/    (value < LARGEST).then_some(value as u64)/
