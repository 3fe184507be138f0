/if outputs.status == 0 {/{n;s/return NO_READING;/return ReadingRecord { edition, ..NO_READING };/}
