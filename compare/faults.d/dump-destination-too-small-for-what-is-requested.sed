s/error_flags(section, source_end, memory_end, has > room)/error_flags(section, source_end, memory_end, section.requested > room)/
