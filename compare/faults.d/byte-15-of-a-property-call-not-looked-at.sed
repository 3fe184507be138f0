/no record of this phandle/,/bytes 8 to 15 not zero/s/area\[8\.\.16\]/area[8..15]/
