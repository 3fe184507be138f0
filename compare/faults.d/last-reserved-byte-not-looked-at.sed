/area\[4\.\.16\]\.iter/{N;/refused(-3/s/4\.\.16/4..15/}
