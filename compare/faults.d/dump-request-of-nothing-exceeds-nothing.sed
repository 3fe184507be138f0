s/(section.source + section.requested > source_end, 0x2000)/(section.requested > 0 \&\& section.source + section.requested > source_end, 0x2000)/
