s/header.first_section <= byte && byte < header.sections_end()/header.first_section <= byte + 1 \&\& byte < header.sections_end()/
