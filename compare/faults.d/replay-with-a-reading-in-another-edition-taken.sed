s/(edition != state.edition).then_some/false.then_some/
