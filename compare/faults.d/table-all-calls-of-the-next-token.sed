s/,all,", token + 1), 28 + token));/,all,", token + 1), 28 + (token + 1) % 4));/
