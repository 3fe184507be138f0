s/u128::from(registration.phase == Phase::Registered) + //
