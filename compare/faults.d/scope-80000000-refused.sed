s/0x8000_0000..=0xffff_ffff => Some(NEGATIVE)/0x8000_0001..=0xffff_ffff => Some(NEGATIVE)/
