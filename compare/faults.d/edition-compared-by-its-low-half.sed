s/if edition != record.edition {/if edition \& 0xffff != record.edition \& 0xffff {/
