s/if ours == recorded {/if ours.iter().zip(recorded).all(|(ours, recorded)| ours == recorded) {/
