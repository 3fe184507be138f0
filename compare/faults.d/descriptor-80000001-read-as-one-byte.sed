s/negative => (1 << 32) - u64::from(negative),/negative => u64::from(negative \& 0x7fff_ffff),/
