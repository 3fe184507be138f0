s/^    if inputs.flag != record.flag {$/    if edition != record.edition { return refused(-4, "edition unlike the record's"); } else if inputs.flag != record.flag {/
