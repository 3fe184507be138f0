s/if edition == 0xffff_ffff {/if edition == 0x1_0000_0000 {/
