s/holder: Holder::Fixed, at: entry.at, length: entry.length }/holder: Holder::Fixed, at: entry.at, length: entry.length + 1 }/
