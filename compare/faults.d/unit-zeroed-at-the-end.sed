s/&unit.unwrap_or(0).to_be_bytes()/\&unit.filter(|_| remain).unwrap_or(0).to_be_bytes()/
