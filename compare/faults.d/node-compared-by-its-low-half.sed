s/filter(|property| property.phandle == phandle)/filter(|property| property.phandle as u16 == phandle as u16)/
