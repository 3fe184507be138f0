s/if number > 69_905 {/if number > 69_906 {/
