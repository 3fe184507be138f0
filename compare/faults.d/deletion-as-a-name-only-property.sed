s/if change.value.is_none() { 0x8000_0000 }/if change.value.is_none() { 0 }/
