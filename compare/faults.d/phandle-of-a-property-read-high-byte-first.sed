s/let phandle = little(&record.body\[0\.\.4\]);/let phandle = super::words::big(\&record.body[0..4]);/
