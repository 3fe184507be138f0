s/    if !\[0, MALFORMED, NO_ROOM\].contains(&state.fault) {/    if ![0, MALFORMED, NO_ROOM, 52].contains(\&state.fault) {/
