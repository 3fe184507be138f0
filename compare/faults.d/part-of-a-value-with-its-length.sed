s/descriptor: length.wrapping_neg()/descriptor: length/
