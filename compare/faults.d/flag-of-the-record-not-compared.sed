s/if inputs.flag != record.flag {/if false {/
