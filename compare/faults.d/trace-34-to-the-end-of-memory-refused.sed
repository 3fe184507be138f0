s/if address + bytes.len() as u64 > memory.len() as u64 {/if address + bytes.len() as u64 >= memory.len() as u64 {/
