s/^    if let Some(rule) = broken_figures(more) {$/    if let Some(rule) = broken_figures(more).filter(|_| put_in(\&mut totals.clone(), more)) {/
