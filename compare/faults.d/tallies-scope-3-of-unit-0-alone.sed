s/scope::reportable_list(&changes, &types, None)/scope::reportable_list(\&changes, \&types, (number == 3).then_some(0))/
