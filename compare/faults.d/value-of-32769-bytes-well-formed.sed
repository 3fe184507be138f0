s/const LONGEST_VALUE: usize = 32_768;/const LONGEST_VALUE: usize = 32_769;/
