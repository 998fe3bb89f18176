#!/usr/bin/env python3
"""Runs the programs from_export and to_export on exports and captures built here from the words of request K8: cycles from
stamps that go round, NOPs between events that are further apart than 65,535 cycles, and every refusal. What one program wrote
is given to the other. Every sample is written as an export and read back."""
import glob
import os
import subprocess
import sys
import tempfile

sys.path.insert(0, os.path.join(os.path.dirname(os.path.abspath(__file__)), ".."))
from arguments import tried
from captures import (ACTIVE, LOW, NOP, READ, REACH, SLEEPY, USUAL, WRITE, capture, edition_in, events_in, export, quiet, records,
                      setting, settings_in, with_nops)
from running import from_file, from_pipe, program, unreadable

SAMPLES = os.path.join(os.path.dirname(os.path.abspath(__file__)), "..", "..", "samples")
PATIENT = setting(13, 1_000_000)
HIGH = 1 << 20
THREE = [(65_000, NOP), (100, NOP), (99, NOP)]

# Records, and the events that they are.
READS = [
    ("no records", [], []),
    ("stamps that go round", THREE, [(65_000, NOP), (65_636, NOP), (131_171, NOP)]),
    ("the first stamp", [(7, ACTIVE | 5)], [(7, ACTIVE | 5)]),
    ("the longest and the shortest difference", [(0, NOP), (65_535, NOP), (65_534, NOP), (65_535, 0xFFFFF)],
     [(0, NOP), (65_535, NOP), (131_070, NOP), (131_071, 0xFFFFF)]),
    ("8,000 records", [(65_535 * i % 65_536, NOP) for i in range(8000)], [(65_535 * i, NOP) for i in range(8000)]),
]

# Records, the settings' file, and what is said.
READ_REFUSED = [
    ("7 bytes", bytes(7), capture([]), "11 place 0"),
    ("a stamp that stands", records([(5, NOP), (5, NOP)]), capture([]), "11 place 1"),
    ("that and a pin that there is not", records([(5, NOP | HIGH), (5, NOP)]), capture([]), "11 place 1"),
    ("a pin that there is not", records([(5, NOP), (6, HIGH)]), capture([]), "4 place 1"),
    ("8,001 records", bytes(48_006), capture([]), "11 place 8000"),
    ("a megabyte", bytes(6 * 170_000), capture([]), "11 place 8000"),
    ("8,001 records and a byte", bytes(48_007), capture([]), "11 place 0"),
    ("a megabyte that ends within a record", bytes(6 * 170_000 + 5), capture([]), "11 place 0"),
    ("two longest exports and a record", bytes(2 * 48_000 + 12), capture([]), "11 place 8000"),
    ("edition 2", b"", capture([], edition=2), "2 place 0"),
    ("a tRC of 11", b"", capture([], setting(7, 11)), "3 place 7"),
    ("edition 2 and a tRC of 11", bytes(7), capture([], setting(7, 11), edition=2), "2 place 0"),
    ("a tRC of 11 and 7 bytes", bytes(7), capture([], setting(7, 11)), "3 place 7"),
]

# The settings' file, of which the first 80 bytes count, and the settings in it.
OTHER_SETTINGS = [
    ("with events behind", capture([(9, READ), (5, NOP)]), USUAL),
    ("with a wrong length and a wrong count", capture([], header=[7, 14, 24, 9, 80, 0]), USUAL),
    ("cut behind the settings", quiet(3)[:80], PATIENT),
]

# What is no capture of fourteen settings.
NO_SETTINGS = [
    ("nothing", b""),
    ("79 bytes", capture([])[:79]),
    ("sixteen settings", capture([], SLEEPY)),
    ("a settings count of 15", capture([], header=[80, 15, 24, 0, 80, 0])),
    ("settings that start at 20", capture([], header=[80, 14, 20, 0, 80, 0])),
    ("events that start at 88", capture([], header=[80, 14, 24, 0, 88, 0])),
    ("an export", export([(i, NOP) for i in range(100)])),
]

# Cycles of NOPs, and those of the records.
WRITES = [
    ([0, 65_535], [0, 65_535]),
    ([0, 65_536], [0, 65_535, 65_536]),
    ([5, 131_076], [5, 65_540, 131_075, 131_076]),
    ([0, 131_070], [0, 65_535, 131_070]),
    ([0, 131_071], [0, 65_535, 131_070, 131_071]),
    ([65_535], [65_535]),
    ([], []),
    ([0, 7_999 * REACH], [REACH * i for i in range(8000)]),
]

WRITE_REFUSED = [
    ("an empty input", b"", "1 place 0"),
    ("a megabyte", quiet(8000) * 16, "1 place 0"),
    ("edition 2", capture([], edition=2), "2 place 0"),
    ("a tRC of 11", capture([], setting(7, 11)), "3 place 7"),
    ("cycles that fall", capture([(70_000, NOP), (5, NOP)]), "4 place 1"),
    ("sixteen settings", capture([(0, NOP | LOW)], SLEEPY), "12 place 0"),
    ("a first cycle of 65,536", capture([(65_536, NOP)], PATIENT), "12 place 0"),
    ("8,001 records", capture([(0, NOP), (7_999 * REACH + 1, NOP)], PATIENT), "12 place 0"),
    ("the last cycle", capture([(0, NOP), (2_000_000_000, NOP)], PATIENT), "12 place 0"),
]

wrong = 0


def hold(name, run, out, err=b""):
    global wrong
    if (run.stdout, run.stderr) != (out, err):
        wrong += 1
        print(f"WRONG {name}: {len(run.stdout)} bytes {run.stdout[-32:].hex()} {run.stderr!r}, not {len(out)} {out[-32:].hex()} {err!r}")


def read(export_bytes, settings, swapped=False):
    """A run of from_export; the settings are named, and the export stands on standard input, or the other way round."""
    with tempfile.NamedTemporaryFile() as named, tempfile.TemporaryFile() as source:
        for file, data in ((named, export_bytes if swapped else settings), (source, settings if swapped else export_bytes)):
            file.write(data)
            file.flush()
            file.seek(0)
        words = ["-", named.name] if swapped else [named.name]
        return subprocess.run(program("from_export") + words, stdin=source, capture_output=True)


def reads():
    for name, given, events in READS:
        for edition in (0, 1):
            front = capture([], edition=edition)
            expected = capture(events, edition=edition)
            hold(name, read(records(given), front), expected)
            hold(name + ", settings from standard input", read(records(given), front, swapped=True), expected)
            hold(name + ", written again", from_file("to_export", expected), records(given))
    for name, front, settings in OTHER_SETTINGS:
        hold("settings " + name, read(records(THREE[:1]), front), capture([(65_000, NOP)], settings))
    for name, given, front, said in READ_REFUSED:
        hold(name, read(given, front), b"", f"from_export: refused {said}; nothing was written\n".encode())
    for name, front in NO_SETTINGS:
        said = b"from_export: standard input is no capture of fourteen settings; nothing was written\n"
        hold("settings: " + name, read(records(THREE), front, swapped=True), b"", said)
    for words in ([], ["-"], ["-", "-"]):
        run = subprocess.run(program("from_export") + words, stdin=subprocess.DEVNULL, capture_output=True)
        hold(f"from_export {words}", run, b"", b"from_export: standard input cannot be both files, see --help; nothing was written\n")
    run = subprocess.run(program("from_export") + ["none"], stdin=subprocess.DEVNULL, capture_output=True)
    hold("no such settings", run, b"", b"from_export: none could not be opened: there is no such file; nothing was written\n")


def writes():
    for before, after in WRITES:
        data = capture([(cycle, NOP) for cycle in before], PATIENT)
        expected = records([(cycle % 65_536, NOP) for cycle in after])
        hold(f"NOPs at {before}", from_file("to_export", data), expected)
        hold(f"NOPs at {before}, through a pipe", from_pipe("to_export", data, 40, 0.001), expected)
        hold(f"NOPs at {before}, read back", read(expected, data), capture([(cycle, NOP) for cycle in after], PATIENT))
    for name, data, said in WRITE_REFUSED:
        hold(name, from_file("to_export", data), b"", f"to_export: refused {said}; nothing was written\n".encode())
    for name, run in unreadable("to_export"):
        hold(name, run, b"", b"to_export: standard input could not be read to its end; nothing was written\n")


def refusal(data, said):
    """What to_export has to say of an accepted sample; nothing where it writes it."""
    if said.startswith(b"refused"):
        return said.rstrip()
    events = events_in(data)
    late = events and events[0][0] > REACH
    return b"refused 12 place 0" if len(settings_in(data)) == 16 or late or len(with_nops(events)) > 8000 else None


def samples():
    """Each as an export, and read back under its own settings."""
    paths = sorted(glob.glob(os.path.join(SAMPLES, "*.capture")))
    for path in paths:
        with open(path, "rb") as file:
            data = file.read()
        said = refusal(data, from_file("report", data).stdout)
        if said:
            hold(path, from_file("to_export", data), b"", b"to_export: " + said + b"; nothing was written\n")
            continue
        events = events_in(data)
        hold(path, from_file("to_export", data), export(events))
        hold(path + ", read back", read(export(events), data), capture(with_nops(events), settings_in(data), edition=edition_in(data)))
    return len(paths)


def main():
    global wrong
    reads()
    writes()
    count = samples()
    one, other = [(0, ACTIVE | 77), (3, READ | 5)], [(9, WRITE | 78)]
    lines, badly = tried("to_export", "nothing was written", capture(one), export(one), capture(other), export(other))
    more, worse = tried("from_export", "nothing was written", export(one), capture(one), export(other), capture(other), capture([]))
    wrong += badly + worse
    print(f"exports: {2 * len(READS)} read, {len(WRITES)} written, {len(READ_REFUSED) + len(NO_SETTINGS) + len(WRITE_REFUSED)} refused, "
          f"{count} samples, {lines + more} lines of arguments, {wrong} wrong")
    return 1 if wrong else 0


sys.exit(main())
