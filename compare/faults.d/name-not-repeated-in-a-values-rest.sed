s/pieces.push(whole(change, rest));/pieces.push(Piece { name: if due.byte > 0 { \&[] } else { change.name }, ..whole(change, rest) });/
