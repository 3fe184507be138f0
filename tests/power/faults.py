#!/usr/bin/env python3
"""Plants faults in what a tape expects, and requires that the player finds each at its call:

faults.py EMULATOR PLAYER NAMES TAPE.. alters, for each function, one byte of the answer of its first call and, where a call of it
left bytes in a buffer, one of those; each in a copy of its own. Every function of NAMES has to have a call in one of the tapes.
"""
import pathlib
import subprocess
import sys


def play(player, tape, *words):
    return subprocess.run([*player, *words], input=tape, capture_output=True, check=False)


def places(player, tape):
    """For each function its first call, with the place of its answer, and its first call that left bytes, with theirs."""
    told = play(player, tape, '--places')
    if told.returncode:
        sys.exit(f'faults: the tape itself is not played: {told.stdout[-300:]!r} {told.stderr[-300:]!r}')
    found = {}
    for line in told.stdout.decode().splitlines():
        call, name, answer, piece = line.split()
        found.setdefault((name, 'answer'), (int(call), int(answer)))
        if int(piece):
            found.setdefault((name, 'buffer'), (int(call), int(piece)))
    return found


def is_found(player, tape, name, call, place):
    altered = bytearray(tape)
    altered[place] ^= 0x40
    told = play(player, bytes(altered))
    return told.returncode == 3 and told.stdout.decode().startswith(f'difference in call {call}, {name}: ')


def main():
    player, tapes = sys.argv[1:3], [pathlib.Path(name).read_bytes() for name in sys.argv[4:]]
    functions = {line.split()[0] for line in pathlib.Path(sys.argv[3]).read_text().splitlines()}
    planted = {}
    for tape in tapes:
        for key, (call, place) in places(player, tape).items():
            if key not in planted:
                planted[key] = is_found(player, tape, key[0], call, place)
    unplanted = functions - {name for name, _ in planted}
    if unplanted:
        sys.exit(f'faults: these tapes have no call of {", ".join(sorted(unplanted))}')
    missed = [f'{name}, {part}' for (name, part), found in planted.items() if not found]
    if missed:
        sys.exit(f'faults: not found at its call: {"; ".join(missed)}')
    answers = sum(part == 'answer' for _, part in planted)
    print(f'{len(planted)} planted faults found: {answers} in answers, one for each function, {len(planted) - answers} in buffers')


main()
