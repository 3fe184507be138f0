s/return refused_at(41, 8);/return refused_at(41, 4);/
