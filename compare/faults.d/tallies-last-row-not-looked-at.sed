s/journal.tallies.iter().flatten().any(/journal.tallies[..3].iter().flatten().any(/
