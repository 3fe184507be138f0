/^fn property</,/malformed: name/s/1\.\.=LONGEST_NAME/1..=32/
