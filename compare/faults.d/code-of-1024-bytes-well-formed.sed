s/const LONGEST_CODE: u64 = 1_023;/const LONGEST_CODE: u64 = 1_024;/
