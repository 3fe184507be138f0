s/if inputs.kind != record.kind {/if false {/
