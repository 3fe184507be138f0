s/if edition != record.edition {/if edition > record.edition {/
