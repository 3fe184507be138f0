s/^        return Ok(none());$/        return Ok(Registration { copy: registration.copy, ..none() });/
