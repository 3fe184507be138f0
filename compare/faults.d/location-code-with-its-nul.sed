s/length: entry.code_length })/length: entry.code_length + 1 })/
