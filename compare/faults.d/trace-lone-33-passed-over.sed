s/AFTER => Err(malformed("33 without a 32")),/AFTER => { position.records += 1; Ok(behind) }/
