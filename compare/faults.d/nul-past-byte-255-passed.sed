s/if code.contains(&0) {/if code[..code.len().min(255)].contains(\&0) {/
