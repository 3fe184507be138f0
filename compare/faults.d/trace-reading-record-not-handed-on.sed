s/position.reading = told.reading;/let _ = told.reading;/
