s/if inputs.start == 1 {/if inputs.start == 1 \&\& (edition == record.edition || record.number == 1) {/
