s/if behind.len() > LONGEST_VALUE {/if behind.len() > LONGEST_VALUE + LONGEST_NAME {/
