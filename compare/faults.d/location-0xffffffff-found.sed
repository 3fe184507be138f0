/^pub fn lookup(/,/^}/s/if index == 0xffff_ffff {/if index == 0x1_0000_0000 {/
