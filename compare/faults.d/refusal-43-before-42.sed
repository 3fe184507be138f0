/^fn read_property(/,/refused_at(42, at)/s/_ => return refused_at(42, at),/_ => return refused_at(if at + 6 > 4096 { 43 } else { 42 }, at),/
