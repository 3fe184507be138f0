s/Some(big(&area\[4\.\.12\]))/Some(big(\&area[4..12]).swap_bytes())/
