s/holder: Holder::Fixed, at: entry.at, length: entry.length }/holder: Holder::Fixed, at: entry.at, length: entry.length.min(1_023) }/
