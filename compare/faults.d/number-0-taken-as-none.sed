s/number: 1, edition: 0 };/number: 0, edition: 0 };/
