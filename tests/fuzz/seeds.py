#!/usr/bin/env python3
"""seeds.py FOLDER: writes the fuzzer's first inputs, small captures and request lists for every refusal and for many
rules, by docs/RULES.md, of 14 settings and of 16 and of both editions. The first byte of each says what it is (src/lib.rs)."""
import os
import sys

sys.dont_write_bytecode = True
sys.path.insert(0, os.path.join(os.path.dirname(os.path.abspath(__file__)), ".."))
from captures import (A10, ACTIVE, AUTO_REFRESH, BURST_TERMINATE, DESELECT, LOW, MODE_REGISTER_SET, NOP, PRECHARGE, READ,
                      SLEEPY, USUAL, WRITE, bank, capture, mode_word, setting, words)

CAPTURE, SPELLED, LIST, SPELLED_LIST = 0, 1, 2, 3
SPELLED_ASLEEP = SPELLED | 1 << 4
NEWER = 1 << 5

EVENTS = {
    "nothing": [],
    "read": [(0, ACTIVE), (3, READ | 5), (20, PRECHARGE | A10), (23, AUTO_REFRESH), (35, NOP)],
    "mode": [(0, MODE_REGISTER_SET | 0x24), (2, ACTIVE), (5, READ), (40, PRECHARGE), (43, MODE_REGISTER_SET | bank(2))],
    "writes": [(0, ACTIVE), (3, WRITE), (4, WRITE | 8), (9, READ), (20, ACTIVE | bank(1)), (23, WRITE | bank(1) | A10)],
    "rule 1": [(0, ACTIVE | 1 << 13)],
    "rule 2": [(0, MODE_REGISTER_SET | 0x42)],
    "rule 3": [(0, READ)],
    "rule 4": [(1, AUTO_REFRESH), (12, ACTIVE)],
    "rule 5": [(0, ACTIVE), (3, READ | A10), (9, ACTIVE)],
    "rule 7": [(0, ACTIVE), (1, ACTIVE | bank(1))],
    "rule 8": [(0, ACTIVE), (2, READ)],
    "rule 9": [(0, ACTIVE), (3, WRITE), (6, PRECHARGE)],
    "rule 10": [(0, ACTIVE), (3, WRITE), (8, PRECHARGE)],
    "rule 11": [(0, ACTIVE), (3, WRITE), (6, READ)],
    "rule 12": [(0, ACTIVE), (3, READ), (4, BURST_TERMINATE), (6, WRITE)],
    "rule 13": [(0, ACTIVE), (3, WRITE), (4, BURST_TERMINATE)],
    "rule 14": [(9000, NOP)],
    "refreshes paid back": [(8000, AUTO_REFRESH), (8012, AUTO_REFRESH), (10_999, NOP), (11_000, NOP)],
}

ASLEEP = {
    "power-down": [(0, ACTIVE), (3, READ), (8, NOP | LOW), (9, DESELECT | LOW), (20, NOP), (22, READ | 8), (30, PRECHARGE)],
    "self refresh": [(0, AUTO_REFRESH | LOW), (200, NOP | LOW), (210, NOP), (230, ACTIVE), (233, WRITE)],
    "entries": [(0, NOP | LOW), (1, NOP), (3, AUTO_REFRESH | LOW), (4, DESELECT), (24, DESELECT | LOW)],
    "tXP": [(0, NOP | LOW), (5, NOP), (6, ACTIVE)],
    "tXSR": [(0, AUTO_REFRESH | LOW), (5, NOP), (24, ACTIVE)],
    "inside a read": [(0, ACTIVE), (3, READ), (7, NOP | LOW)],
    "inside a write": [(0, ACTIVE), (3, WRITE), (5, NOP | LOW)],
    "inside tRFC": [(0, AUTO_REFRESH), (11, NOP | LOW)],
    "entry by a command": [(0, BURST_TERMINATE | LOW)],
    "command while low": [(0, NOP | LOW), (5, PRECHARGE | LOW)],
    "exit by a command": [(0, AUTO_REFRESH | LOW), (5, ACTIVE)],
    "rule 3 while low": [(0, NOP | LOW), (5, READ | LOW)],
    "rule 14 in power-down": [(0, NOP | LOW), (9000, NOP)],
    "rule 14 after self refresh": [(5, AUTO_REFRESH | LOW), (5000, NOP), (14_000, NOP)],
}

# Of edition 1, with 14 settings and the burst length, tWR and tWTR that stand first.
INTERRUPTED = {
    "cut by a read": (4, 3, 1, [(0, ACTIVE), (3, WRITE), (6, READ)]),
    "cut by a precharge": (4, 3, 1, [(0, ACTIVE), (3, WRITE), (8, PRECHARGE)]),
    "cut twice": (16, 6, 1, [(0, ACTIVE), (3, WRITE), (9, READ), (12, PRECHARGE)]),
    "cut by a read when closed": (4, 3, 20, [(0, ACTIVE), (2, ACTIVE | bank(1)), (3, WRITE), (9, PRECHARGE), (25, READ | bank(1))]),
    "spared when idle": (16, 6, 1, [(0, ACTIVE), (3, WRITE), (9, READ | A10), (12, PRECHARGE | A10)]),
    "spared when opened again": (8, 30, 2, [(0, ACTIVE), (3, WRITE), (10, READ | A10), (17, ACTIVE), (35, PRECHARGE)]),
    "cut and ended": (16, 6, 1, [(0, ACTIVE), (3, WRITE), (9, READ), (10, BURST_TERMINATE), (20, WRITE)]),
    "two writes": (8, 10, 1, [(0, ACTIVE), (2, ACTIVE | bank(1)), (5, WRITE), (14, WRITE | bank(1)), (17, PRECHARGE)]),
    "after auto precharge": (4, 3, 1, [(0, ACTIVE), (2, ACTIVE | bank(1)), (5, WRITE | A10), (8, READ | bank(1))]),
    "rule 10 of edition 1": (4, 3, 1, [(0, ACTIVE), (3, WRITE), (7, PRECHARGE)]),
    "rule 11 of edition 1": (4, 3, 1, [(0, ACTIVE), (3, WRITE), (5, READ)]),
}

REFUSED = {
    "refusal 1": capture([])[:79],
    "refusal 2": capture([], header=[80, 15, 24, 0, 80, 0]),
    "another edition": capture([(0, NOP)], edition=2),
    "refusal 3": capture([], setting(3, 0x42)),
    "contradiction": capture([(0, ACTIVE), (3, READ | A10), (10, ACTIVE)], setting(7, 11)),
    "refusal 4": capture([(0, NOP), (1, NOP | 1 << 20)]),
    "refusal 1 of 16 settings": capture([], SLEEPY)[:87],
    "refusal 1 of 80 bytes": capture([], header=[80, 16, 24, 0, 80, 0]),
    "refusal 2 of 16 settings": capture([], SLEEPY, [88, 17, 24, 0, 88, 0]),
    "refusal 3 of 16 settings": capture([], setting(15, 0, SLEEPY)),
    "contradiction of 16 settings": capture([(0, NOP)], setting(7, 11, SLEEPY)),
    "refusal 4 of 16 settings": capture([(0, NOP | LOW), (1, NOP | 1 << 21)], SLEEPY),
}

# Case m, and each refusal of a schedule.
FOUR = [5, 1 << 31 | 8388608, 5, 8388608]
LISTS = {
    "case m": setting(13, 24) + 10 * FOUR,
    "no request": USUAL,
    "refusal 3 of a schedule": setting(1, 15) + FOUR,
    "contradiction of a schedule": setting(7, 11) + FOUR,
    "refusal 5": USUAL + [5, 1 << 27],
    "refusal 6": setting(13, 16) + 10 * FOUR,
}


def spelled_settings(settings):
    """As src/spelled.rs reads them."""
    lane, rows, columns, mode = settings[:4]
    order = (mode & 7) - 1 | (mode >> 3 & 1) << 2 | (mode >> 4 & 1) << 3
    trefi, times = settings[13] - 1, [t - 1 for t in settings[4:13]]
    wake = [t - 1 for t in settings[14:]]
    return bytes([lane - 1, rows - 12, columns - 8, order] + times + [trefi % 256, trefi // 256] + wake)


def spelled(events, settings=USUAL):
    data, free = spelled_settings(settings), 0
    for cycle, pins in events:
        data += words([pins | cycle - free << 24])
        free = cycle + 1
    return data


def seeds():
    for name, events in EVENTS.items():
        yield name, CAPTURE, capture(events)
        if all(cycle < 256 for cycle, _ in events):
            yield "spelled " + name, SPELLED, spelled(events)
    for name, events in ASLEEP.items():
        yield name, CAPTURE, capture(events, SLEEPY)
        if all(cycle < 256 for cycle, _ in events):
            yield "spelled " + name, SPELLED_ASLEEP, spelled(events, SLEEPY)
    for name, (length, twr, twtr, events) in INTERRUPTED.items():
        settings = setting(3, mode_word(length, False, 3), setting(9, twr, setting(10, twtr)))
        yield name, CAPTURE, capture(events, settings, edition=1)
        yield "spelled " + name, SPELLED | NEWER, spelled(events, settings)
    asleep = [(0, ACTIVE), (5, WRITE), (8, PRECHARGE), (9, NOP | LOW)]
    yield "asleep when cut", SPELLED_ASLEEP | NEWER, spelled(asleep, setting(3, mode_word(16, False, 3), setting(9, 1, SLEEPY)))
    yield "spelled rule 14", SPELLED, spelled([(99, NOP)], setting(13, 11))
    yield "too short a buffer", SPELLED | 2 << 2, spelled(EVENTS["read"])
    for name, data in REFUSED.items():
        yield name, CAPTURE, data
    for name, list_ in LISTS.items():
        yield name, LIST, words(list_)
    yield "too short a buffer for a schedule", LIST | 2 << 2, words(LISTS["case m"])
    yield "refusal 2 of a schedule", LIST | 13 << 4, words(LISTS["case m"])
    yield "spelled case m", SPELLED_LIST, spelled_settings(setting(13, 24)) + words(10 * FOUR)


os.makedirs(sys.argv[1], exist_ok=True)
for name, how, data in seeds():
    with open(os.path.join(sys.argv[1], name.replace(" ", "-")), "wb") as file:
        file.write(bytes([how]) + data)
