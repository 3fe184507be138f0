s/format!("{byte:02x}")/format!("{byte:02X}")/
