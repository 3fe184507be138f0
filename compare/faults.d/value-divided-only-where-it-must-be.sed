s/} else if before_value < left {/} else if before_value < left \&\& before_value + rest.len() > AREA as usize - HEAD {/
