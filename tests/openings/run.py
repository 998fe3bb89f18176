#!/usr/bin/env python3
"""Runs the program openings on captures that are clean by how they are built, and holds what it prints to tests/openrows.py,
which is written from document 01 and request K9. Captures that break a rule, and inputs that are no captures, are refused.
The worked lines of the request stand here with what the request says of them."""
import glob
import os
import random
import sys

HERE = os.path.dirname(os.path.abspath(__file__))
sys.path.insert(0, os.path.join(HERE, ".."))
import openrows
from arguments import tried
from captures import (A10, ACTIVE, AUTO_REFRESH, LOW, NOP, PRECHARGE, READ, SLEEPY, USUAL, WRITE, bank, capture, column, events_in,
                      quiet, setting)
from running import from_file, from_pipe, unreadable

CRATE = os.path.join(HERE, "..", "..", "crates", "openings")
SAMPLES = os.path.join(HERE, "..", "..", "samples")

# The worked lines: events, settings, the words of the index, and the bank records.
FIRST = [(0, ACTIVE | 5), (2, ACTIVE | bank(1) | 6), (5, READ), (9, PRECHARGE), (12, ACTIVE | 7), (13, NOP)]
SECOND = [(0, ACTIVE | 5), (3, READ | A10), (10, ACTIVE | 6), (14, WRITE), (30, PRECHARGE | A10)]
ASLEEP = [(0, ACTIVE | bank(2) | 9), (1, NOP | LOW), (8, NOP), (10, PRECHARGE | bank(2))]
WORKED = [
    (FIRST, USUAL, [5, 0, 2, 7, 4, 5, 6, 1, 5], [(0, 2), (2, 1), (3, 0), (3, 0)]),
    (SECOND, USUAL, [5, 0, 0, 6, 2, 3], [(0, 2), (2, 0), (2, 0), (2, 0)]),
    (ASLEEP, SLEEPY, [9, 0, 2], [(0, 0), (0, 0), (0, 1), (1, 0)]),
    ([], USUAL, [], [(0, 0)] * 4),
]

# Events that break a rule, and where.
BROKEN = [
    ([(0, ACTIVE), (1, READ)], 1),
    ([(0, READ)], 0),
    (FIRST + [(14, ACTIVE | 8), (40, NOP)], 6),
    ([(0, ACTIVE | 1 << 13), (9, ACTIVE)], 0),
]

REFUSED = [
    ("an empty input", b"", "1 place 0"),
    ("79 bytes", capture([])[:79], "1 place 0"),
    ("a megabyte", quiet(8000) * 16, "1 place 0"),
    ("a settings count of 15", capture([], header=[80, 15, 24, 0, 80, 0]), "2 place 0"),
    ("row bits 15", capture(FIRST, setting(1, 15)), "3 place 1"),
    ("the second event's cycle", capture([(7, ACTIVE | 5), (7, NOP)]), "4 place 1"),
] + [(f"broken at event {at}", capture(events), f"8 place {at}") for events, at in BROKEN]

wrong = 0


def hold(name, run, out, err=b""):
    global wrong
    if (run.stdout, run.stderr) != (out, err):
        wrong += 1
        print(f"WRONG {name}: {run.stdout[:600]!r} {run.stderr!r}, not {out[:600]!r} {err!r}")


def traffic(chance, n):
    """n events, twenty cycles apart, so that every time is over at each; a refresh follows on all banks closed."""
    rows, pins, since = set(), [], 0
    while len(pins) < n:
        b = chance.randrange(4)
        if since > 30:
            pins += [PRECHARGE | A10, AUTO_REFRESH]
            rows, since = set(), 0
        elif b not in rows:
            pins.append(ACTIVE | bank(b) | chance.randrange(1 << 13))
            rows.add(b)
        elif chance.random() < 0.4:
            pins.append(chance.choice([READ, WRITE, NOP]) | bank(b) | column(chance.randrange(1024)))
        elif chance.random() < 0.5:
            pins.append(chance.choice([READ, WRITE]) | bank(b) | A10 | column(chance.randrange(1024)))
            rows.discard(b)
        else:
            pins.append(PRECHARGE | (bank(b) if chance.random() < 0.8 else A10))
            rows = rows - {b} if not pins[-1] & A10 else set()
        since += 1
    return [(20 * i, word) for i, word in enumerate(pins[:n])]


def most():
    """8,000 events with as many ACTIVEs as can be: four, and a PRECHARGE of all."""
    group = [ACTIVE, ACTIVE | bank(1), ACTIVE | bank(2), ACTIVE | bank(3), PRECHARGE | A10]
    events = [(8 * (i // 5) + (i % 5 if i % 5 < 4 else 6), group[i % 5] | (i // 5 if i % 5 < 4 else 0)) for i in range(8000)]
    return events, [1, 13, 10, 0x32, 1, 1, 1, 1, 1, 1, 1, 1, 1, 10_000]


def captures(chance):
    """Name, events, settings."""
    for i, (events, settings, _, _) in enumerate(WORKED):
        yield f"worked line {i}", events, settings
    for n in [*range(1, 60), 500, 8000]:
        yield f"traffic of {n}", traffic(chance, n), USUAL
    yield "the most openings", *most()


def main():
    global wrong
    for events, _, words, records in WORKED:
        if openrows.index(events) != (words, records):
            wrong += 1
            print(f"WRONG by tests/openrows.py: {openrows.index(events)}, not {(words, records)}")
    count = 0
    for name, events, settings in captures(random.Random(1)):
        count += 1
        out = openrows.text(events).encode()
        hold(name, from_file("openings", capture(events, settings)), out)
        if count % 8 == 1:
            hold(name + ", through a pipe", from_pipe("openings", capture(events, settings), 4096, 0.001), out)
            hold(name + ", edition 1", from_file("openings", capture(events, settings, edition=1)), out)
    for name, data, said in REFUSED:
        hold(name, from_file("openings", data), f"refused {said}\n".encode())
    for name, run in unreadable("openings"):
        hold(name, run, b"", b"openings: standard input could not be read to its end; nothing was looked at\n")
    samples = sorted(glob.glob(os.path.join(SAMPLES, "*.capture")))
    for path in samples:
        with open(path, "rb") as file:
            data = file.read()
        said = from_file("report", data).stdout.decode()
        if said.endswith("\nclean\n"):
            said = openrows.text(events_in(data))
        elif not said.startswith("refused"):
            said = f"refused 8 place {said.split()[8]}\n"
        hold(path, from_file("openings", data), said.encode())
    with open(os.path.join(CRATE, "stdin"), "rb") as stdin, open(os.path.join(CRATE, "stdout"), "rb") as stdout:
        data, printed = stdin.read(), stdout.read()
    if (data, printed) != (capture(FIRST), openrows.text(FIRST).encode()):
        wrong += 1
        print("WRONG crates/openings/stdin or stdout is not the first worked line")
    other = capture(SECOND)
    lines, badly = tried("openings", "nothing was looked at", data, printed, other, openrows.text(SECOND).encode())
    wrong += badly
    print(f"openings: {count} captures, {len(REFUSED)} refused, {len(samples)} samples, {lines} lines of arguments, {wrong} wrong")
    return 1 if wrong else 0


sys.exit(main())
