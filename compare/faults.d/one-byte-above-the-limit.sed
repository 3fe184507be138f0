s/const MOST_BYTES: usize = 1_048_576;/const MOST_BYTES: usize = 1_048_577;/
