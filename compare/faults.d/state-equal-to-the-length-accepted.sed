s/state == 0 || state < length/state == 0 || state <= length/
