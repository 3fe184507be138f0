s/return Told { number, registration, reading, rule };/return Told { number, registration, reading: NO_READING, rule };/
