s/(1..=4).contains(&nuls)/(1..=5).contains(\&nuls)/
