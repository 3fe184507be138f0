s/let listed = entries.iter().find(/let listed = entries.iter().rev().find(/
