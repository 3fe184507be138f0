s/waiting: 1.., records, .. } => (2, 0, records),/waiting: 1.., records, .. } => (2, 0, records + 1),/
