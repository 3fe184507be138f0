s/^\( *\)\(entries.push(FixedEntry .*;\)$/\1if length > 0 { \2 }/
