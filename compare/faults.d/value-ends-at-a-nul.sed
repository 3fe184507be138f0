s/if record.kind == 5 { Some(behind) }/if record.kind == 5 { behind.split(|\&byte| byte == 0).next() }/
