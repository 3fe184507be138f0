s/^const SCOPES: \[u64; 4\] = \[0x8000_0000, 1, 2, 3\];/const SCOPES: [u64; 4] = [1, 1, 2, 3];/
