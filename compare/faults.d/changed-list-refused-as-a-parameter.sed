s/return refused(-4, "edition unlike the record/return refused(-3, "edition unlike the record/
