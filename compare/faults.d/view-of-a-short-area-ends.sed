/^pub fn view_step(/,/^}/s/if area.len() < 4 {/if area.len() < 4 \&\& position.left > 0 {/
