s/let with_outputs = |outputs: Vec<u32>| Answered { outputs, registration, reading };/let with_outputs = |outputs: Vec<u32>| Answered { outputs, registration, reading: NO_READING };/
