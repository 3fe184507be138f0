s/if at as u64 + 4 + 4 \* count > 4096 {/if at as u64 + 4 + 4 * count >= 4096 {/
