s/return refused_at(21, reserved_at);/return refused_at(21, 4);/
