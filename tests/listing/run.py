#!/usr/bin/env python3
"""Runs the listing program on captures whose verdict is known from how they are built by document 01, and holds what it
prints to tests/listing/rendering.py."""
import os
import random
import sys

HERE = os.path.dirname(os.path.abspath(__file__))
sys.path.insert(0, os.path.join(HERE, ".."))
import rendering
from arguments import tried
from captures import (A10, ACTIVE, AUTO_REFRESH, BURST_TERMINATE, DESELECT, LOW, MODE_REGISTER_SET, NOP, PRECHARGE, READ,
                      SLEEPY, USUAL, WRITE, bank, capture, column, mode_word, nine_owed, quiet, setting)
from running import from_file, from_pipe, unreadable

CRATE = os.path.join(HERE, "..", "..", "crates", "listing")

# More than any time of the usual settings, tXSR too, and a burst with its latency.
APART = 20

# For each rule, events counted from a cycle at which the part is idle and every time is over; the last event breaks the
# rule and no lower one.
FAULTS = [
    (1, USUAL, [(0, ACTIVE | bank(1) | 1 << 13)]),
    (1, setting(1, 12), [(0, ACTIVE | 0x1FFF)]),
    (2, USUAL, [(0, MODE_REGISTER_SET | 0x42)]),
    (2, USUAL, [(0, MODE_REGISTER_SET | 0x30)]),
    (2, USUAL, [(0, MODE_REGISTER_SET | 1 << 13 | 0x32)]),
    (2, USUAL, [(0, MODE_REGISTER_SET | bank(1) | 0x32)]),
    (2, USUAL, [(0, MODE_REGISTER_SET | bank(3))]),
    (3, USUAL, [(0, READ | bank(2))]),
    (3, USUAL, [(0, WRITE | A10 | column(77))]),
    (3, USUAL, [(0, ACTIVE | bank(3) | 5), (30, AUTO_REFRESH)]),
    (4, USUAL, [(0, AUTO_REFRESH), (11, ACTIVE)]),
    (4, USUAL, [(0, MODE_REGISTER_SET | 0x2B), (1, ACTIVE)]),
    (5, USUAL, [(0, ACTIVE), (8, PRECHARGE), (10, ACTIVE)]),
    (5, USUAL, [(0, ACTIVE | bank(2)), (3, READ | bank(2) | A10), (9, AUTO_REFRESH)]),
    (7, USUAL, [(0, ACTIVE | bank(3)), (1, ACTIVE | bank(1))]),
    (8, USUAL, [(0, ACTIVE), (2, READ)]),
    (8, USUAL, [(0, ACTIVE), (2, WRITE | A10 | column(1023))]),
    (9, USUAL, [(0, ACTIVE), (6, PRECHARGE)]),
    (10, USUAL, [(0, ACTIVE), (3, WRITE), (8, PRECHARGE | A10)]),
    (11, USUAL, [(0, ACTIVE), (3, WRITE), (6, READ)]),
    (12, USUAL, [(0, ACTIVE), (3, READ), (7, WRITE)]),
    (13, USUAL, [(0, ACTIVE), (3, WRITE), (4, BURST_TERMINATE)]),
    (13, USUAL, [(0, ACTIVE), (2, ACTIVE | bank(1)), (5, READ | A10), (6, READ | bank(1))]),
]

# The same in edition 1: events that break a rule there, those that edition 0 breaks sooner, and those that either breaks.
FAULTS_NEWER = [
    (3, USUAL, [(0, WRITE | bank(2))]),
    (9, USUAL, [(0, ACTIVE), (3, WRITE), (6, PRECHARGE)]),
    (10, USUAL, [(0, ACTIVE), (3, WRITE), (7, PRECHARGE)]),
    (10, setting(9, 12), [(0, ACTIVE), (3, WRITE), (16, PRECHARGE | A10)]),
    (11, USUAL, [(0, ACTIVE), (3, WRITE), (5, READ)]),
    (11, setting(10, 12), [(0, ACTIVE), (2, ACTIVE | bank(1)), (5, WRITE | column(8)), (18, READ | bank(1))]),
    (11, USUAL, [(0, ACTIVE), (2, ACTIVE | bank(1)), (5, WRITE | A10), (8, READ | bank(1))]),
    (12, USUAL, [(0, ACTIVE), (3, WRITE), (6, READ), (10, WRITE)]),
    (13, USUAL, [(0, ACTIVE), (3, WRITE), (5, BURST_TERMINATE)]),
    (10, SLEEPY, [(0, ACTIVE), (3, WRITE), (7, PRECHARGE)]),
    (11, SLEEPY, [(0, ACTIVE), (3, WRITE), (5, READ)]),
    (15, SLEEPY, [(0, ACTIVE), (3, WRITE), (5, NOP | LOW)]),
]

# Clean in edition 1 alone: writes cut short by READ and by PRECHARGE.
CLEAN_NEWER = [
    [(0, ACTIVE), (3, WRITE), (6, READ)],
    [(0, ACTIVE), (3, WRITE), (8, PRECHARGE)],
    [(0, ACTIVE), (3, WRITE), (6, READ), (9, PRECHARGE | A10)],
]

# The same with sleep, under the usual settings with tXP 2 and tXSR 20.
FAULTS_ASLEEP = [
    (1, [(0, NOP | LOW), (5, ACTIVE | LOW | 1 << 13)]),
    (3, [(0, NOP | LOW), (5, READ | LOW | bank(1) | column(9))]),
    (3, [(0, NOP | LOW), (5, READ)]),
    (3, [(0, ACTIVE), (20, AUTO_REFRESH | LOW)]),
    (4, [(0, AUTO_REFRESH), (11, NOP | LOW)]),
    (4, [(0, MODE_REGISTER_SET | bank(2)), (1, DESELECT | LOW)]),
    (5, [(0, ACTIVE), (3, READ | A10), (9, AUTO_REFRESH | LOW)]),
    (14, [(0, AUTO_REFRESH | LOW), (5000, NOP), (14_000, NOP)]),
    (14, [(0, AUTO_REFRESH), (20, NOP | LOW), (500, NOP | LOW), (9000, NOP)]),
    (15, [(0, NOP | LOW), (5, NOP), (6, ACTIVE)]),
    (15, [(0, NOP | LOW), (1, DESELECT), (2, NOP | LOW)]),
    (15, [(0, DESELECT | LOW), (1, NOP), (2, PRECHARGE | A10)]),
    (15, [(0, AUTO_REFRESH | LOW), (5000, NOP), (5019, ACTIVE | bank(3) | 5)]),
    (15, [(0, ACTIVE), (3, READ), (7, NOP | LOW)]),
    (15, [(0, ACTIVE), (3, WRITE), (5, NOP | LOW)]),
    (15, [(0, BURST_TERMINATE | LOW)]),
    (15, [(0, NOP | LOW), (5, PRECHARGE | LOW)]),
    (15, [(0, AUTO_REFRESH | LOW), (10_000, ACTIVE)]),
    (15, [(0, AUTO_REFRESH | LOW), (10_000, MODE_REGISTER_SET | LOW | 0x32)]),
]


def traffic(n):
    """n events that keep every rule and leave the part idle: rows opened, read or written, closed, and a refresh."""
    events = []
    for i in range(n // 4):
        b = bank(i % 4)
        events += [ACTIVE | b | i, (WRITE if i % 3 else READ) | b | column(i), PRECHARGE | (A10 if i % 2 else b), AUTO_REFRESH]
    events += [NOP, DESELECT, NOP][:n % 4]
    if 2 <= n % 4:
        events[-1] = MODE_REGISTER_SET | 0x32
    return [(APART * i, pins) for i, pins in enumerate(events)]


def traffic_asleep(n):
    """The same with sleep in it; the part is left awake."""
    events = []
    for i in range(n // 8):
        b = bank(i % 4)
        refresh = [AUTO_REFRESH, NOP | LOW, NOP] if i % 3 else [AUTO_REFRESH | LOW, DESELECT | LOW, DESELECT]
        events += [ACTIVE | b | i, (WRITE if i % 3 else READ) | b | column(i), NOP | LOW, NOP, PRECHARGE | b] + refresh
    events += [NOP] * (n % 8)
    return [(APART * i, pins) for i, pins in enumerate(events)]


def anything(chance, n, cycle, settings=USUAL):
    """Events behind the broken one, which are not judged: any pins."""
    most = 1 << (20 if len(settings) == 14 else 21)
    return [(cycle + 1 + i, chance.randrange(most)) for i in range(n)]


def fault_cases(chance):
    for rule, settings, fault in FAULTS:
        for before in (0, 1, 6, 8, 9, 30):
            for after in (0, 3, 5):
                start = traffic(before)
                events = start + [(APART * before + cycle, pins) for cycle, pins in fault]
                at = len(events) - 1
                events += anything(chance, after, events[-1][0])
                yield capture(events, settings), rendering.broken(events, settings, rule, at)


def fault_cases_asleep(chance):
    for rule, fault in FAULTS_ASLEEP:
        for before in (0, 1, 8, 9, 16, 24, 33):
            start = traffic_asleep(before)
            events = start + [(APART * before + cycle, pins) for cycle, pins in fault]
            at = len(events) - 1
            events += anything(chance, before % 6, events[-1][0], SLEEPY)
            yield capture(events, SLEEPY), rendering.broken(events, SLEEPY, rule, at)


def cases_newer(chance):
    """Of edition 1, whose traffic is clean in either."""
    for rule, settings, fault in FAULTS_NEWER:
        for before in (0, 1, 8, 9, 16):
            start = traffic(before) if len(settings) == 14 else traffic_asleep(before)
            events = start + [(APART * before + cycle, pins) for cycle, pins in fault]
            at = len(events) - 1
            events += anything(chance, before % 6, events[-1][0], settings)
            yield capture(events, settings, edition=1), rendering.broken(events, settings, rule, at, edition=1)
    for events in [traffic(n) for n in (0, 1, 9, 100)] + CLEAN_NEWER:
        for settings in (USUAL, SLEEPY):
            yield capture(events, settings, edition=1), rendering.clean(events, settings, edition=1)
    for number in range(30):
        settings = any_settings(chance, 16 if number % 3 == 2 else 14)
        yield capture([(0, NOP)], settings, edition=1), rendering.clean([(0, NOP)], settings, edition=1)


def late_cases(chance):
    """Rule 14, at the first cycle at which nine refreshes are owed."""
    for before in (0, 3, 4, 5, 7, 8, 9, 40):
        start = traffic(before)
        late = nine_owed(start, USUAL[13])
        for pins in (NOP, DESELECT, AUTO_REFRESH, PRECHARGE | A10):
            events = start + [(late, pins)] + anything(chance, before % 7, late)
            yield capture(events), rendering.broken(events, USUAL, 14, before)


def any_settings(chance, n=14):
    """n settings within their limits that do not contradict each other."""
    def between(least, most):
        return least + chance.randrange(most - least + 1)
    mode = mode_word(2 ** between(1, 4), between(0, 1), between(2, 3))
    times = [between(1, 10_000) for _ in range(9)]
    times[3] = between(1, min(10_000, times[1] + times[2]))  # tRC, by tRP and tRAS
    first = [between(1, 2), between(12, 14), between(8, 11), mode] + times
    return first + [between(1, 10**6)] + [between(1, 10_000) for _ in range(n - 14)]


def command_cases(chance):
    """READ of an idle bank at cycle 0 breaks rule 3 whatever the settings are; the four events behind it are listed."""
    for number in range(300):
        settings = any_settings(chance, 16 if number % 3 == 2 else 14)
        events = [(0, READ | chance.randrange(1 << 16))] + anything(chance, 6, 0, settings)
        yield capture(events, settings), rendering.broken(events, settings, 3, 0)


def longest_cases():
    settings = setting(13, 1_000_000)
    still = [(i, NOP) for i in range(7999)]
    yield quiet(8000), rendering.clean(still + [(7999, NOP)], settings)
    for at in (0, 4000, 7999):
        events = [(i + 5, READ if i == at else NOP) for i in range(8000)]
        yield capture(events, settings), rendering.broken(events, settings, 3, at)


def clean_cases(chance):
    for n in (0, 1, 2, 9, 100):
        yield capture(traffic(n)), rendering.clean(traffic(n), USUAL)
        yield capture(traffic_asleep(n), SLEEPY), rendering.clean(traffic_asleep(n), SLEEPY)
    for number in range(60):
        settings = any_settings(chance, 16 if number % 3 == 2 else 14)
        yield capture([(0, NOP)], settings), rendering.clean([(0, NOP)], settings)


def refused_cases(chance):
    cases = [(b"", 1, 0), (capture([])[:79], 1, 0), (capture([]) + b"\0", 1, 0), (quiet(8000) + b"\0", 1, 0),
             (quiet(8001), 1, 0), (capture([], header=[80, 14, 24, 1, 80, 0]), 2, 0),
             (capture([], header=[80, 14, 25, 0, 80, 0]), 2, 0), (capture([], SLEEPY)[:87], 1, 0),
             (capture([], header=[80, 16, 24, 0, 80, 0]), 1, 0), (capture([], SLEEPY, [88, 16, 24, 0, 80, 0]), 2, 0),
             (capture([], SLEEPY, [88, 15, 24, 0, 88, 0]), 2, 0), (quiet(8000, SLEEPY) + b"\0", 1, 0),
             (capture([(0, NOP)], edition=2), 2, 0), (capture([], SLEEPY, edition=0xFFFF_FFFF), 2, 0),
             (capture([], setting(1, 15), edition=1), 3, 1), (capture([(0, NOP | 1 << 20)], edition=1), 4, 0)]
    below_and_above = [(0, 3), (11, 15), (7, 12), (0x30, 0x42)] + [(0, 10_001)] * 9 + [(0, 1_000_001)] + [(0, 10_001)] * 2
    for i, words in enumerate(below_and_above):
        words += (0xFFFF_FFFF,)
        cases += [(capture(traffic(5), setting(i, word)), 3, i) for word in words if i < 14]
        cases += [(capture(traffic_asleep(9), setting(i, word, SLEEPY)), 3, i) for word in words]
    # tRP, tRAS and a tRC above both together; with another fault behind it, and before it.
    for trp, tras, trc in [(3, 7, 11), (3, 7, 100), (1, 1, 3), (1, 1, 10_000), (4999, 5000, 10_000), (10_000, 9_000, 10_001)]:
        for usual, events in [(USUAL, [(0, NOP | 1 << 20)]), (SLEEPY, traffic_asleep(9))]:
            settings = setting(5, trp, setting(6, tras, setting(7, trc, usual)))
            cases += [(capture(events, settings), 3, 7), (capture(events, setting(4, 0, settings)), 3, 4),
                      (capture(events, setting(13, 0, settings)), 3, 13 if trc <= 10_000 else 7)]
    for at, event in [(0, (0, NOP | LOW | 1 << 21)), (5, (APART * 4, NOP | LOW)), (8, (2_000_000_001, NOP | LOW))]:
        events = traffic_asleep(9)
        events[at] = event
        cases.append((capture(events, SLEEPY), 4, at))
    for n in (1, 2, 9, 200):
        for at in {0, n // 2, n - 1}:
            for cycle, pins in [(0xFFFF_FFFF, NOP), (2_000_000_001, READ), (APART * at, NOP | 1 << 20), (APART * at, 1 << 31)]:
                events = traffic(n)
                events[at] = cycle, pins
                cases.append((capture(events), 4, at))
            if at:
                events = traffic(n)
                events[at] = events[at - 1][0], chance.randrange(1 << 20)
                cases.append((capture(events), 4, at))
    return [(data, rendering.refused(data, number, place)) for data, number, place in cases]


# Every form of a command, broken in the middle: bank 0 is precharged at 36 and opened at 38, and tRP is 3.
STORED = [
    (5, MODE_REGISTER_SET | 0x32), (8, MODE_REGISTER_SET | bank(2) | 0x20), (10, AUTO_REFRESH), (22, ACTIVE | bank(3) | 8191),
    (25, READ | bank(3) | A10 | column(1023)), (27, ACTIVE | 5), (30, WRITE), (32, NOP), (33, DESELECT),
    (34, READ | column(512)), (35, BURST_TERMINATE), (36, PRECHARGE), (38, ACTIVE | 6), (41, PRECHARGE | A10),
    (45, AUTO_REFRESH), (60, NOP), (70, NOP), (80, NOP), (90, NOP),
]


def stored_case():
    """The crate's own run, whose output was worked out by hand."""
    with open(os.path.join(CRATE, "stdin"), "rb") as i, open(os.path.join(CRATE, "stdout")) as o:
        return i.read(), o.read()


def main():
    chance = random.Random(1)
    data, output = stored_case()
    wrong = int(data != capture(STORED) or output != rendering.broken(STORED, USUAL, 5, 12))
    if wrong:
        print("WRONG the crate's stdin and stdout")
    cases = [stored_case(), *fault_cases(chance), *fault_cases_asleep(chance), *late_cases(chance), *command_cases(chance),
             *longest_cases(), *clean_cases(chance), *refused_cases(chance), *cases_newer(chance)]
    for number, (data, expected) in enumerate(cases):
        runs = [from_file("listing", data)] + ([from_pipe("listing", data, 100, 0.001)] if number % 50 == 0 else [])
        for run in runs:
            if run.stdout.decode() != expected or run.stderr:
                wrong += 1
                print(f"WRONG capture {number}: {run.stdout.decode()}{run.stderr.decode()}not\n{expected}")
    for name, run in unreadable("listing"):
        if run.stdout or b"nothing was judged" not in run.stderr:
            wrong += 1
            print(f"WRONG {name}: {run.stdout!r} {run.stderr!r}")
    (data, said), (other, said_of_other) = cases[:2]
    count, badly = tried("listing", "nothing was judged", data, said.encode(), other, said_of_other.encode())
    wrong += badly
    print(f"listing: {len(cases)} captures, {count} lines of arguments, {wrong} wrong")
    return 1 if wrong else 0


sys.exit(main())
