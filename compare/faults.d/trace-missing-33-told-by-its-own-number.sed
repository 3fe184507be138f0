s/\.ok_or(malformed("32 without a good 33"))/.ok_or((Report::Malformed { record: number + 1, rule: "" }, Vec::new()))/
