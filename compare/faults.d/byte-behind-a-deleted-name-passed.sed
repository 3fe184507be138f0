s/if record.kind == 6 \&\& !behind.is_empty() {/if record.kind == 6 \&\& behind.len() > 1 {/
