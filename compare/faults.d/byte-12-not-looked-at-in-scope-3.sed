s/scope == 3 && area\[12\.\.16\]/scope == 3 \&\& area[13..16]/
