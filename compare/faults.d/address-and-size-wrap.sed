s/if inputs.address + inputs.size > memory {/if u64::from((inputs.address as u32).wrapping_add(inputs.size as u32)) > memory {/
