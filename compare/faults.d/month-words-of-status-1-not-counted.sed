s/    status == 0 || status == 1$/    status == 0/
