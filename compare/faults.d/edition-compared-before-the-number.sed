s/^    if inputs.start != record.number {$/    if edition != record.edition { return refused(-4, "edition unlike the record's"); } else if inputs.start != record.number {/
