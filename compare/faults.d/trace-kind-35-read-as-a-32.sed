s/if !\[BEFORE, AFTER, SETTING\].contains(&kind) {/if kind < BEFORE || kind > 35 {/
