s/Err(refused) => (Given::Refused(refused), \*position),/Err(refused) => (Given::Refused(refused), Position { left: position.left - 1, ..*position }),/
