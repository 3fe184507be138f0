s/if inputs.kind != record.kind {/if inputs.kind \& 0xffff != record.kind \& 0xffff {/
