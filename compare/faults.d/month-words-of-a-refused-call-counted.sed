s/    if token == 1 \&\& is_answer(status) {/    if token == 1 {/
