s/(little(&body\[0..4\]), &body\[4..\])/(super::words::big(\&body[0..4]), \&body[4..])/
