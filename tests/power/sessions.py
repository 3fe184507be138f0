#!/usr/bin/env python3
"""Replays recorded sessions by a program for another machine: sessions.py RECORDED EMULATOR PROGRAM.

RECORDED has the session that rust/examples/record.rs recorded here, in which the fourth call was led astray; the whole session
and its front are those of examples/month. Then each byte of each buffer that a call left is altered in the whole session, one at a
time, and has to be told with its call and its place.
"""
import pathlib
import subprocess
import sys

ROOT = pathlib.Path(__file__).resolve().parent.parent.parent
AFTER = 33


def replay(program, recorded, trace):
    """What the program writes of a trace over the journal and inventory of the recording."""
    place = recorded / 'altered'
    place.write_bytes(trace)
    told = subprocess.run([*program, recorded / 'journal', recorded / 'inventory', place], capture_output=True, check=False)
    return told.stdout.decode().strip()


def buffers(trace):
    """Where the buffers after each call stand in a trace."""
    at = 0
    while at < len(trace):
        end = at + 2 + int.from_bytes(trace[at:at + 2], 'little')
        if trace[at + 2] == AFTER:
            yield at + 4, end
        at = end


def main():
    recorded, program = pathlib.Path(sys.argv[1]), sys.argv[2:4]
    whole = (ROOT / 'examples/month/whole').read_bytes()
    sessions = [((recorded / 'trace').read_bytes(), 'differs call 4 at 39'), (whole, 'agreed 7')]
    sessions.append(((ROOT / 'examples/month/front').read_bytes(), 'agreed 3'))
    agreed, altered = len(sessions) - 1, 1
    for call, (begin, end) in enumerate(buffers(whole), 1):
        for place in range(begin, end):
            trace = bytearray(whole)
            trace[place] ^= 1 << place % 8
            sessions.append((bytes(trace), f'differs call {call} at {place - begin}'))
            altered += 1
    for trace, expected in sessions:
        told = replay(program, recorded, trace)
        if told != expected:
            sys.exit(f'sessions: {told!r} and not {expected!r}')
    print(f'{agreed} sessions agree; {altered} with an altered byte differ at its call and place')


main()
