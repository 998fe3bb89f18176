#!/usr/bin/env python3
"""Runs the program play on captures that are clean by how they are built, and holds what it prints to a player written here from
the words of request K12: bursts that nothing cuts, and the worked lines with what the request says of them. Inputs that cannot be
played are refused, and inputs that are not whole are told on standard error."""
import os
import random
import struct
import sys

HERE = os.path.dirname(os.path.abspath(__file__))
sys.path.insert(0, os.path.join(HERE, ".."))
from arguments import tried
from captures import ACTIVE, NOP, READ, USUAL, WRITE, bank, capture, column, setting
from running import from_file, from_pipe, unreadable

CRATE = os.path.join(HERE, "..", "..", "crates", "play")
UNDONE = b"nothing was played"

wrong = 0


def hold(name, run, out, err=b""):
    global wrong
    if (run.stdout, run.stderr) != (out, err):
        wrong += 1
        print(f"WRONG {name}: {run.stdout[:600]!r} {run.stderr!r}, not {out[:600]!r} {err!r}")


def words(*list_of):
    return struct.pack("<%dI" % len(list_of), *list_of)


def asked(bytes_of, first, window, writes, size=None):
    return bytes_of + words(first, len(window) if size is None else size, *window, *writes)


def text(first, window, read):
    """What is printed of a play, for the window afterwards and the words read."""
    lines = ["words %d" % len(read)] + ["word 0x%08x" % word for word in read]
    return "".join(line + "\n" for line in lines + ["cell %d 0x%08x" % (first + i, word) for i, word in enumerate(window)]).encode()


# ---- a player: lane by lane, beat by beat

def stored(lanes, held, word, mask):
    for lane in range(lanes):
        if mask >> lane & 1 == 0:
            byte = 255 << 8 * lane
            held = held & ~byte | word & byte
    return held


def played(events, lane_code, length, first, window, writes):
    """Events of one row of bank 0, in bursts of `length` that wrap in their block and that nothing cuts."""
    window, read, taken = list(window), [], 0
    for _, pins in events:
        start = pins & 0x3FF
        cells = [start - start % length + (start + beat) % length for beat in range(length)]
        if pins & 0xF0000 == WRITE:
            for cell in cells:
                window[cell - first] = stored(2 * lane_code, window[cell - first], writes[taken], writes[taken + 1])
                taken += 2
        elif pins & 0xF0000 == READ:
            read += [window[cell - first] & (1 << 16 * lane_code) - 1 for cell in cells]
    return window, read


# ---- the request's worked lines

EIGHT = [0xAAAA0000 + i for i in range(8)]
ONE_WRITE = [(0, ACTIVE), (3, WRITE | column(1)), (7, READ)]
FOUR = [0x11111111, 0, 0x22222222, 1, 0x33333333, 2, 0x44444444, 3]
FULL = [0x11111111, 0, 0x22222222, 1, 0x33333333, 6, 0x44444444, 15]
CUT = [(0, ACTIVE), (3, WRITE), (4, WRITE | column(8)), (8, READ)]
CUT_WORDS = [word for i in range(8) for word in (0x100 + i, 0)]
WORKED = [
    ("lane code 1", asked(capture(ONE_WRITE), 0, EIGHT, FOUR),
     text(0, [0xAAAA0000, 0xAAAA1111, 0xAAAA2202, 0xAAAA0033] + EIGHT[4:], [0x0000, 0x1111, 0x2202, 0x0033])),
    ("lane code 2", asked(capture(ONE_WRITE, setting(0, 2)), 0, EIGHT, FULL),
     text(0, [0xAAAA0000, 0x11111111, 0x22222202, 0x33AA0033] + EIGHT[4:], [0xAAAA0000, 0x11111111, 0x22222202, 0x33AA0033])),
    ("a cut write", asked(capture(CUT), 0, [0] * 12, CUT_WORDS),
     text(0, [0x100, 0x101] + [0] * 6 + [0x104, 0x105, 0x106, 0x107], [0x100, 0x101, 0, 0])),
    ("nothing to play", asked(capture([]), 5, [7, 8], []), text(5, [7, 8], [])),
    ("no window", asked(capture([(0, NOP)]), 5, [], []), text(5, [], [])),
    ("a mask too few", asked(capture(ONE_WRITE), 0, EIGHT, FOUR[:7]), b"refused 15 place 1\n"),
    ("a word too few", asked(capture(ONE_WRITE), 0, EIGHT, FOUR[:6]), b"refused 15 place 1\n"),
    ("a window from cell 2", asked(capture(ONE_WRITE), 2, EIGHT, FOUR), b"refused 15 place 1\n"),
    ("far away", asked(capture(ONE_WRITE), 0xFFFFFFFF, EIGHT, FOUR), b"refused 15 place 0\n"),
    ("too large", asked(capture(ONE_WRITE), 0, [], [], 16385), b"refused 15 place 0\n"),
    ("as large as a word can say", asked(capture(ONE_WRITE), 0, [], [], 0xFFFFFFFF), b"refused 15 place 0\n"),
    ("the largest", asked(capture(ONE_WRITE), 0, [9] * 16384, FOUR), None),
    ("leaving the part", asked(capture(ONE_WRITE), 33554428, [7] * 5, []), b"refused 15 place 0\n"),
    ("a broken rule", asked(capture([(0, ACTIVE), (2, READ)]), 0, EIGHT, []), b"refused 8 place 1\n"),
    ("another bank", asked(capture([(0, ACTIVE | bank(1)), (3, READ | bank(1))]), 0, EIGHT, []), b"refused 15 place 1\n"),
    ("an empty input", b"", b"refused 1 place 0\n"),
    ("79 bytes that state 80", capture([])[:79], b"refused 1 place 0\n"),
    ("row bits 15", asked(capture(ONE_WRITE, setting(1, 15)), 0, EIGHT, FOUR), b"refused 3 place 1\n"),
]

BY_ITSELF = b"play: standard input "
TOLD = [
    ("no words behind", capture(ONE_WRITE), BY_ITSELF + b"ends before the window does; " + UNDONE + b"\n"),
    ("a word of the window too few", asked(capture(ONE_WRITE), 0, EIGHT[:7], [], 8), BY_ITSELF + b"ends before the window does; " + UNDONE + b"\n"),
    ("bytes over", asked(capture(ONE_WRITE), 0, EIGHT, FOUR) + b"\0", BY_ITSELF + b"has some bytes over behind its last word; " + UNDONE + b"\n"),
    ("too long", asked(capture(ONE_WRITE), 0, EIGHT, [0] * 65536), BY_ITSELF + b"is too long; " + UNDONE + b"\n"),
]


def traffic(chance, lane_code, mode, length):
    """Reads and writes of row 0, forty cycles apart, so that nothing is cut and every time is over at each."""
    kinds = [chance.choice([READ, WRITE, NOP]) for _ in range(chance.randrange(1, 20))]
    events = [(0, ACTIVE)] + [(40 * (i + 1), kind | column(chance.randrange(64))) for i, kind in enumerate(kinds)]
    settings = list(USUAL)
    settings[0], settings[3] = lane_code, mode
    taken = length * sum(kind == WRITE for kind in kinds)
    writes = [word for _ in range(taken) for word in (chance.getrandbits(32), chance.getrandbits(chance.choice([0, 2, 4, 32])))]
    return events, settings, writes


def main():
    global wrong
    for name, given, expected in WORKED:
        if expected is None:
            window, read = played(ONE_WRITE, 1, 4, 0, [9] * 16384, FOUR)
            expected = text(0, window, read)
        hold(name, from_file("play", given), expected)
    for name, given, told in TOLD:
        hold(name, from_file("play", given), b"", told)
    chance = random.Random(12)
    for number in range(60):
        lane_code, bits = chance.choice([1, 2]), chance.choice([1, 2, 3, 4])
        events, settings, writes = traffic(chance, lane_code, 0x30 | bits, 1 << bits)
        window = [chance.getrandbits(32) for _ in range(80)]
        given = asked(capture(events, settings), 0, window, writes)
        hold(f"traffic {number}", from_file("play", given), text(0, *played(events, lane_code, 1 << bits, 0, window, writes)))
    hold("through a pipe", from_pipe("play", WORKED[0][1], 40, 0.001), WORKED[0][2])
    for name, run in unreadable("play"):
        hold(name, run, b"", b"play: standard input could not be read to its end; nothing was played\n")
    with open(os.path.join(CRATE, "stdin"), "rb") as stdin, open(os.path.join(CRATE, "stdout"), "rb") as stdout:
        data, printed = stdin.read(), stdout.read()
    if (data, printed) != WORKED[0][1:]:
        wrong += 1
        print("WRONG crates/play/stdin or stdout is not the first worked line")
    lines, badly = tried("play", "nothing was played", data, printed, *WORKED[2][1:])
    wrong += badly
    print(f"play: {len(WORKED)} worked lines, {len(TOLD)} told, 60 captures of traffic, {lines} lines of arguments, {wrong} wrong")
    return 1 if wrong else 0


sys.exit(main())
