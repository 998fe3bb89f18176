#!/usr/bin/env python3
"""Runs the report program on captures built here from document 01's description of the bytes, and holds what it prints
to what document 01 says. Each capture comes whole from a file, in pieces through a pipe, and byte by byte."""
import os
import sys

sys.path.insert(0, os.path.join(os.path.dirname(os.path.abspath(__file__)), ".."))
from arguments import tried
from captures import ACTIVE, AUTO_REFRESH, LOW, NOP, PRECHARGE, READ, SLEEPY, WRITE, capture, quiet, setting, with_edition
from running import from_file, from_pipe, unreadable

READ_BACK = [(0, ACTIVE), (3, WRITE), (6, READ)]

CASES = [
    ("case b at cycle 2: tRCD is 3", capture([(0, ACTIVE), (2, READ)]),
     "events 2\njudged 1\nbroken rule 8 event 1 cycle 2\n"),
    ("case b at cycle 3", capture([(0, ACTIVE), (3, READ)]), "events 2\njudged 2\nclean\n"),
    ("case a: no events", capture([]), "events 0\njudged 0\nclean\n"),
    ("the first event breaks rule 14", capture([(9000, NOP)]),
     "events 1\njudged 0\nbroken rule 14 event 0 cycle 9000\n"),
    ("one refresh, and nine are owed again",
     capture([(8999, AUTO_REFRESH), (9999, NOP), (10_000, NOP)]), "events 3\njudged 2\nbroken rule 14 event 2 cycle 10000\n"),
    ("an empty input is under 80 bytes", b"", "refused 1 place 0\n"),
    ("79 bytes", capture([])[:79], "refused 1 place 0\n"),
    ("not of its stated total", capture([]) + b"\0", "refused 1 place 0\n"),
    ("a settings count of 15", capture([], header=[80, 15, 24, 0, 80, 0]), "refused 2 place 0\n"),
    ("N does not fit the total", capture([], header=[80, 14, 24, 1, 80, 0]), "refused 2 place 0\n"),
    ("edition 2", capture([], edition=2), "refused 2 place 0\n"),
    ("edition 1 in the highest byte", capture([], edition=1 << 24), "refused 2 place 0\n"),
    ("edition 2, and row bits 15", capture([], setting(1, 15), edition=2), "refused 2 place 0\n"),
    ("edition 1, and row bits 15", capture([], setting(1, 15), edition=1), "refused 3 place 1\n"),
    ("row bits 15", capture([], setting(1, 15)), "refused 3 place 1\n"),
    ("a mode word of latency 4", capture([], setting(3, 0x42)), "refused 3 place 3\n"),
    ("a tRC of 100 for 10", capture([(0, ACTIVE)], setting(7, 100)), "refused 3 place 7\n"),
    ("a tRC of 11, and tREFI 0", capture([], setting(13, 0, setting(7, 11))), "refused 3 place 13\n"),
    ("a tRC of 11, and the second event's pins", capture([(0, NOP), (1, NOP | 1 << 20)], setting(7, 11)), "refused 3 place 7\n"),
    ("document 01's own line: the second event's pins", capture([(0, NOP), (1, NOP | 1 << 20)]), "refused 4 place 1\n"),
    ("a refused event behind a broken rule", capture([(0, ACTIVE), (2, READ), (2, NOP)]), "refused 4 place 2\n"),
    ("64,080 bytes, the longest capture", quiet(8000), "events 8000\njudged 8000\nclean\n"),
    ("64,080 bytes with the fault in the last event",
     capture([(i, NOP) for i in range(7999)] + [(9_000_000, NOP)], setting(13, 1_000_000)),
     "events 8000\njudged 7999\nbroken rule 14 event 7999 cycle 9000000\n"),
    ("64,081 bytes", quiet(8000) + b"\0", "refused 1 place 0\n"),
    ("64,088 bytes that state their total", quiet(8001), "refused 1 place 0\n"),
    ("a megabyte", quiet(8000) * 16, "refused 1 place 0\n"),
    ("16 settings: no events", capture([], SLEEPY), "events 0\njudged 0\nclean\n"),
    ("a power-down and tXP", capture([(0, NOP | LOW), (5, NOP), (7, ACTIVE)], SLEEPY), "events 3\njudged 3\nclean\n"),
    ("ACTIVE before tXP is over", capture([(0, NOP | LOW), (5, NOP), (6, ACTIVE)], SLEEPY),
     "events 3\njudged 2\nbroken rule 15 event 2 cycle 6\n"),
    ("a self refresh longer than nine tREFI", capture([(5, AUTO_REFRESH | LOW), (10_000, NOP), (19_000, NOP)], SLEEPY),
     "events 3\njudged 2\nbroken rule 14 event 2 cycle 19000\n"),
    ("87 bytes of 16 settings", capture([], SLEEPY)[:87], "refused 1 place 0\n"),
    ("80 bytes that count 16 settings", capture([], header=[80, 16, 24, 0, 80, 0]), "refused 1 place 0\n"),
    ("a settings count of 17", capture([], SLEEPY, [88, 17, 24, 0, 88, 0]), "refused 2 place 0\n"),
    ("tXSR 0", capture([], setting(15, 0, SLEEPY)), "refused 3 place 15\n"),
    ("tXSR 0, and a tRC of 11", capture([], setting(15, 0, setting(7, 11, SLEEPY))), "refused 3 place 15\n"),
    ("16 settings: a tRC of 11", capture([], setting(7, 11, SLEEPY)), "refused 3 place 7\n"),
    ("pin bit 21", capture([(0, NOP | LOW), (1, NOP | 1 << 21)], SLEEPY), "refused 4 place 1\n"),
    ("64,088 bytes, the longest capture of 16 settings", quiet(8000, SLEEPY), "events 8000\njudged 8000\nclean\n"),
    ("64,089 bytes", quiet(8000, SLEEPY) + b"\0", "refused 1 place 0\n"),
    ("64,084 bytes that count 16 settings",
     capture([], SLEEPY, [64_084, 16, 24, 8000, 88, 0]) + bytes(63_996), "refused 2 place 0\n"),
    ("edition 1: no events", capture([], edition=1), "events 0\njudged 0\nclean\n"),
    ("edition 1: READ three cycles after WRITE", capture(READ_BACK, edition=1), "events 3\njudged 3\nclean\n"),
    ("edition 0: the same", capture(READ_BACK), "events 3\njudged 2\nbroken rule 11 event 2 cycle 6\n"),
    ("edition 1: PRECHARGE four cycles after WRITE", capture([(0, ACTIVE), (3, WRITE), (7, PRECHARGE)], edition=1),
     "events 3\njudged 2\nbroken rule 10 event 2 cycle 7\n"),
    ("edition 1 of 16 settings: asleep when the pair that is kept is in",
     capture([(0, ACTIVE), (5, WRITE), (8, PRECHARGE), (9, NOP | LOW)], setting(3, 0x34, setting(9, 1, SLEEPY)), edition=1),
     "events 4\njudged 4\nclean\n"),
    ("edition 2 of 16 settings", capture([], SLEEPY, edition=2), "refused 2 place 0\n"),
    ("edition 1: 64,080 bytes", with_edition(quiet(8000), 1), "events 8000\njudged 8000\nclean\n"),
    ("64,084 bytes that count 14 settings", capture([], header=[64_084, 14, 24, 8000, 80, 0]) + bytes(64_004), "refused 1 place 0\n"),
]


def main():
    wrong = 0
    for name, data, expected in CASES:
        runs = [("file", from_file("report", data)), ("pipe", from_pipe("report", data, 4096, 0.001))]
        if len(data) < 200:
            runs.append(("byte by byte", from_pipe("report", data, 1, 0.001)))
        for how, run in runs:
            if run.stdout.decode() != expected or run.stderr:
                wrong += 1
                print(f"WRONG {name} ({how}): {run.stdout!r} {run.stderr!r}, not {expected!r}")
    for name, run in unreadable("report"):
        if run.stdout or b"nothing was judged" not in run.stderr:
            wrong += 1
            print(f"WRONG {name}: {run.stdout!r} {run.stderr!r}")
    (_, data, said), (_, other, said_of_other) = CASES[:2]
    count, badly = tried("report", "nothing was judged", data, said.encode(), other, said_of_other.encode())
    wrong += badly
    print(f"report: {len(CASES)} captures, {count} lines of arguments, {wrong} wrong")
    return 1 if wrong else 0


sys.exit(main())
