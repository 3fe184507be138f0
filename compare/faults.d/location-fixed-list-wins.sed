/^pub fn lookup(/,/^}/s/match listed {/match listed.filter(|_| fixed_code(fixed, index).is_err()) {/
