s/    let arrived = \[&lent.store\[..held\], bytes\].concat();/    let arrived = [\&lent.store[..held.min(0)], bytes].concat();/
