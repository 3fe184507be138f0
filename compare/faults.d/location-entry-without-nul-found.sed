s/ended: nul.is_some() }/ended: true }/
