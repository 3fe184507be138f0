s/if edition != record.edition {/if edition != record.edition \&\& record.edition != 0xffff_ffff {/
