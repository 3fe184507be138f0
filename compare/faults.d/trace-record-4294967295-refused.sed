s/if number > LAST_NUMBER {/if number >= LAST_NUMBER {/
