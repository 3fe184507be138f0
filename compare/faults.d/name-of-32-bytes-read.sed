/^fn read_property(/,/refused_at(42, at)/s/1\.\.=LONGEST_NAME/1..=32/
