s/Outputs { status: 0, next: 1 }/Outputs { status: 0, next: as_word(next) }/
