/if edition == 0xffff_ffff {/{n;s/return None;/return Some(edition);/}
