s/header.first_section <= byte && byte < header.sections_end()/header.first_section <= byte \&\& byte <= header.sections_end()/
