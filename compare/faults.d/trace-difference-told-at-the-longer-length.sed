s/ours.len().min(recorded.len())/ours.len().max(recorded.len())/
