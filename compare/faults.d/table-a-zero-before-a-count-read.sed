s/let has_zero = digits.len() > 1 \&\& digits\[0\] == b.0.;/let has_zero = digits.len() > 2 \&\& digits[0] == b'0';/
