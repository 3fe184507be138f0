s/    let tallies = sum(&journal.tallies, &more);/    let tallies = more;/
