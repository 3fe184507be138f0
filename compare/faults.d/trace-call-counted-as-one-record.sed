s/position.records += 2;/position.records += 1;/
