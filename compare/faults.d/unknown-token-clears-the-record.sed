s/if refusal.status == -4 {/if refusal.status == -4 || refusal.rule == "unknown token" {/
