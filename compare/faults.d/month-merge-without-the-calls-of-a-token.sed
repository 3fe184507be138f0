s/^        ((0..4).any(|place| figures\[TOKENS + place\] != of_token(place)), /        (false, /
