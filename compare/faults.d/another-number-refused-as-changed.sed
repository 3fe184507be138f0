s/return refused(-3, "number unlike the record/return refused(-4, "number unlike the record/
