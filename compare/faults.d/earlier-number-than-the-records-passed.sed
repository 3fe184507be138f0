s/if inputs.start != record.number {/if inputs.start > record.number {/
