s/if refusal.status == -4 {/if refusal.rule.ends_with("unlike the record's") {/
