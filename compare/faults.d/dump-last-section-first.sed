s/places.into_iter().map(|at| run_section/places.into_iter().rev().map(|at| run_section/
