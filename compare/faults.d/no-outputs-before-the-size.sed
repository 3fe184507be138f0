s/if (args.len() as u64) < 12 + 4 \* (inputs + outputs) {/if outputs > 0 \&\& (args.len() as u64) < 12 + 4 * (inputs + outputs) {/
