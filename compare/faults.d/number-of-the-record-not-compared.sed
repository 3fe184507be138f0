s/if inputs.start != record.number {/if false {/
