s/if length - 2 > LONGEST_BODY {/if length - 2 >= LONGEST_BODY {/
