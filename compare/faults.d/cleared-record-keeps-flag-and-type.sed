/if refusal.status == -4 {/{n;s/return NO_READING;/return ReadingRecord { number: 1, edition: 0, ..record };/}
