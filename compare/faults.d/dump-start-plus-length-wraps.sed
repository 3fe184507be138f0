s/(section.source + section.requested > source_end, 0x2000)/((section.source + section.requested) % (1 << 64) > source_end, 0x2000)/
