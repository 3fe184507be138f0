s/if edition == 0xffff_ffff {/if edition >= 0xffff_fffe {/
