s/^        return (0, 0);$/        return (if section.source >= memory.len() as u128 { 0x4000 } else { 0 }, 0);/
