s/pub const MOST_WORDS: u64 = 1019;/pub const MOST_WORDS: u64 = 1018;/
