/refused_at(40, 0)/,/refused_at(41, 8)/s/area\[8\.\.16\]/area[9..16]/
