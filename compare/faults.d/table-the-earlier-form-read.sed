s/^    match lines.len() <= rows.len() {$/    match lines.len() <= rows.len() \&\& lines.len() != 36 {/
