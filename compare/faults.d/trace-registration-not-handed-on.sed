s/position.registration = told.registration;/let _ = told.registration;/
