s/(section.source + section.requested > source_end, 0x2000)/(section.source < source_end \&\& section.source + section.requested > source_end, 0x2000)/
