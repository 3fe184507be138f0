s/(section.source >= source_end, 0x4000)/(section.source > source_end, 0x4000)/
