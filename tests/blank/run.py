#!/usr/bin/env python3
"""Runs the program blank on captures built here from document 01's description of the bytes, and holds what it writes to
the pins that may be hidden, written out below. What it wrote is given to the report, which has to say the same of it as of
the capture, and to blank again, which has to change nothing. A refused input has no output. The samples are blanked too."""
import glob
import os
import sys

sys.path.insert(0, os.path.join(os.path.dirname(os.path.abspath(__file__)), ".."))
from arguments import tried
from captures import (A10, ACTIVE, ADDRESS, AUTO_REFRESH, BURST_TERMINATE, DESELECT, LOW, MODE_REGISTER_SET, NOP, PRECHARGE,
                      READ, SLEEPY, USUAL, WRITE, bank, blanked, capture, quiet, setting)
from running import from_file, from_pipe, unreadable

SAMPLES = os.path.join(os.path.dirname(os.path.abspath(__file__)), "..", "..", "samples")

# Pins as they come and as they are written, and the row bits of the part.
PINS = [
    (READ | ADDRESS, READ | A10, 13),
    (READ | bank(3) | ADDRESS & ~A10, READ | bank(3), 13),
    (WRITE | bank(1) | ADDRESS, WRITE | bank(1) | A10, 13),
    (WRITE | 1 << 13 | 1 << 11 | 1, WRITE, 13),
    (ACTIVE | bank(2) | 0x1FFF, ACTIVE | bank(2), 13),
    (ACTIVE | 0x2000, ACTIVE | 0x2000, 13),
    (ACTIVE | bank(1) | ADDRESS, ACTIVE | bank(1) | ADDRESS, 13),
    (ACTIVE | 0x0FFF, ACTIVE, 12),
    (ACTIVE | 0x1000, ACTIVE | 0x1000, 12),
    (ACTIVE | ADDRESS, ACTIVE, 14),
]

# Pins that stay as they are.
STAYING = [command | ADDRESS for command in (BURST_TERMINATE, PRECHARGE, AUTO_REFRESH, MODE_REGISTER_SET | bank(2), NOP, DESELECT)]
STAYING += [DESELECT | command | 5 for command in (ACTIVE, READ, WRITE)]

REFUSED = [
    ("an empty input", b"", "1 place 0"),
    ("79 bytes", capture([])[:79], "1 place 0"),
    ("a megabyte", quiet(8000) * 16, "1 place 0"),
    ("a settings count of 15", capture([], header=[80, 15, 24, 0, 80, 0]), "2 place 0"),
    ("row bits 15", capture([(0, ACTIVE | 5)], setting(1, 15)), "3 place 1"),
    ("a tRC of 11", capture([(0, ACTIVE | 5)], setting(7, 11)), "3 place 7"),
    ("the second event's pins", capture([(0, READ | 5), (1, NOP | 1 << 20)]), "4 place 1"),
]

wrong = 0


def hold(name, run, out, err=b""):
    global wrong
    if (run.stdout, run.stderr) != (out, err):
        wrong += 1
        print(f"WRONG {name}: {len(run.stdout)} bytes {run.stdout[-32:].hex()} {run.stderr!r}, not {len(out)} {out[-32:].hex()} {err!r}")


def captures():
    """Name, capture, and what it is blanked to."""
    yield "no events", capture([]), capture([])
    for before, after, row_bits in PINS:
        for low, settings in ((0, setting(1, row_bits, USUAL)), (LOW, setting(1, row_bits, SLEEPY))):
            yield f"{before | low:#x}", capture([(7, before | low)], settings), capture([(7, after | low)], settings)
    for pins in STAYING:
        yield f"{pins:#x}", capture([(7, pins)]), capture([(7, pins)])
        yield f"{pins | LOW:#x}", capture([(7, pins | LOW)], SLEEPY), capture([(7, pins | LOW)], SLEEPY)
    read, behind = (0, ACTIVE | 77), [(5, ACTIVE | 9), (1_999_999_999, WRITE | 3)]
    yield ("behind a broken event", capture([read, (1, READ | 4)] + behind),
           capture([(0, ACTIVE), (1, READ), (5, ACTIVE), (1_999_999_999, WRITE)]))
    longest = [(i, (ACTIVE, READ, WRITE, NOP)[i % 4] | i % 1024) for i in range(8000)]
    yield "64,088 bytes", capture(longest, SLEEPY), capture([(i, pins if i % 4 == 3 else pins & ~0x3FF) for i, pins in longest], SLEEPY)


def main():
    global wrong
    count = 0
    for name, data, expected in captures():
        count += 1
        hold(name, from_file("blank", data), expected)
        hold(name + ", through a pipe", from_pipe("blank", data, 4096, 0.001), expected)
        hold(name + ", once more", from_file("blank", expected), expected)
        hold(name + ", the report", from_file("report", expected), from_file("report", data).stdout)
    for name, data, said in REFUSED:
        hold(name, from_file("blank", data), b"", f"blank: refused {said}; nothing was written\n".encode())
    for name, run in unreadable("blank"):
        hold(name, run, b"", b"blank: standard input could not be read to its end; nothing was written\n")
    samples = sorted(glob.glob(os.path.join(SAMPLES, "*.capture")))
    for path in samples:
        with open(path, "rb") as file:
            data = file.read()
        said = from_file("report", data).stdout
        if said.startswith(b"refused"):
            hold(path, from_file("blank", data), b"", b"blank: " + said.rstrip() + b"; nothing was written\n")
        else:
            hold(path, from_file("blank", data), blanked(data))
            hold(path + ", the report", from_file("report", blanked(data)), said)
    data, other = capture([(0, ACTIVE | 77), (3, READ | 5)]), capture([(0, ACTIVE | 78)])
    lines, badly = tried("blank", "nothing was written", data, blanked(data), other, blanked(other))
    wrong += badly
    print(f"blank: {count} captures, {len(REFUSED)} refused, {len(samples)} samples, {lines} lines of arguments, {wrong} wrong")
    return 1 if wrong else 0


sys.exit(main())
