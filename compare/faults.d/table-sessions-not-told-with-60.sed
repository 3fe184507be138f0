s/number: NO_ROOM, line: 0, sessions, rule/number: NO_ROOM, line: 0, sessions: 0 * sessions, rule/
