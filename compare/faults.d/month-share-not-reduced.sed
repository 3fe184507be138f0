s/    let common = common_divisor(used, available);/    let common = 1;/
