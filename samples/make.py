#!/usr/bin/env python3
"""make.py [FOLDER]: writes every sample into FOLDER (this one if none is named) and prints the table of README.md.

The settings are those of real parts, from tests/data/part-settings.csv. What the report has to say of a sample is known
from how it is made: the controller keeps every rule, and a fault is one command whose cycle or pins break one rule of
docs/RULES.md and no lower one."""
import csv
import os
import sys

HERE = os.path.dirname(os.path.abspath(__file__))
TESTS = os.path.join(HERE, "..", "tests")
sys.path.insert(0, TESTS)
from captures import (A10, ACTIVE, AUTO_REFRESH, LOW, NOP, PRECHARGE, READ, SLEEPY, WRITE, bank, blanked, broken_lines, capture,
                      cas_latency, clean_lines, column, events_in, export, mode_word, nine_owed, setting, with_nops)
from controller import Controller
from scheduler import CLOSED_ROWS, OPEN_ROWS, WRITES, scheduled

# The columns that are settings, in the order of document 01's table.
SETTINGS = ["lane", "rowbits", "colbits", "mode", "tRCD", "tRP", "tRAS", "tRC", "tRRD", "tWR", "tWTR", "tRFC", "tMRD",
            "tREFI"]
WAKE = ["tXP", "tXSR"]


def parts():
    with open(os.path.join(TESTS, "data", "part-settings.csv"), newline="") as f:
        rows = list(csv.DictReader(f))
    numbers = SETTINGS + WAKE
    return {(r["part"], r["grade"]): dict({name: int(r[name]) for name in numbers}, width=16 * int(r["lane"])) for r in rows}


def settings_of(part, names=SETTINGS):
    return [part[name] for name in names]


# ---- samples: each takes a part and a seed, and gives the bytes and the lines of the report

def clean_run(part, seed):
    c = Controller(part, seed)
    run_in_two_modes(c)
    return capture(c.events, settings_of(part)), clean_lines(c.events)


def run_in_two_modes(c):
    c.run(900)
    c.mode_set(mode_word(8, True, c.latency))
    c.run(1800)
    c.close_rows()


def with_fault(part, seed, fault, rule, edition=0):
    """Traffic, a fault in the middle of it, and more traffic: the recorder does not know."""
    c = Controller(part, seed, interrupts=edition == 1)
    c.run(200 + c.below(100))
    return continued(c, fault, rule, SETTINGS, edition)


def continued(c, fault, rule, names, edition=0):
    fault(c)
    at = len(c.events) - 1
    c.run(at + 40)
    return capture(c.events, settings_of(c.part, names), edition=edition), broken_lines(c.events, rule, at)


def read_before_trcd(part, seed):
    def fault(c):
        c.close_rows()
        t = c.active(2, 77)
        c.put(t + part["tRCD"] - 1, READ | bank(2) | column(16))
    return with_fault(part, seed, fault, 8)


def pairs_awaited(c, edition):
    """How many pairs of a write without auto precharge have to be in."""
    return 1 if edition == 1 else c.h


def read_before_twtr(part, seed, edition=0):
    def fault(c):
        c.open_row(1, 300)
        c.open_row(3, 1200)
        c.read(3, 8)
        t = c.write(1, 40)
        c.put(t + 1 + pairs_awaited(c, edition) + part["tWTR"] - 1, READ | bank(3) | column(12))
    return with_fault(part, seed, fault, 11, edition)


def precharge_before_twr(part, seed, edition=0):
    def fault(c):
        c.open_row(0, 9)
        for place in range(4):  # so many that tRAS is over
            t = c.write(0, 4 * place)
        c.put(t + 1 + pairs_awaited(c, edition) + part["tWR"] - 1, PRECHARGE | bank(0))
    return with_fault(part, seed, fault, 10, edition)


def read_before_a_pair_is_in(part, seed):
    return read_before_twtr(part, seed, edition=1)


def precharge_before_a_pair_is_in(part, seed):
    return precharge_before_twr(part, seed, edition=1)


def refresh_with_open_row(part, seed):
    def fault(c):
        c.close_rows()
        c.active(1, 21)
        t = c.active(2, 22)
        c.precharge(1)
        c.put(max(c.next, c.reads_done, t + 2 * part["tRC"]), AUTO_REFRESH)
    return with_fault(part, seed, fault, 3)


def row_that_is_not_there(part, seed):
    def fault(c):
        c.close_rows()
        c.active(1, 21 | 1 << part["rowbits"])
    return with_fault(part, seed, fault, 1)


def active_before_trp(part, seed):
    def fault(c):
        c.open_row(1, 300)
        t = c.precharge(1)
        c.put(t + part["tRP"] - 1, ACTIVE | bank(1) | 301)
    return with_fault(part, seed, fault, 5)


def active_before_trrd(part, seed):
    def fault(c):
        c.close_rows()
        c.put(max(c.next, *c.open_ready), NOP)
        t = c.active(0, 9)
        c.put(t + part["tRRD"] - 1, ACTIVE | bank(3) | 10)
    return with_fault(part, seed, fault, 7)


def precharge_before_tras(part, seed):
    def fault(c):
        c.close_rows()
        t = c.active(2, 5)
        c.put(t + part["tRAS"] - 1, PRECHARGE | bank(2))
    return with_fault(part, seed, fault, 9)


def write_into_read_data(part, seed):
    def fault(c):
        c.open_row(1, 300)
        t = c.read(1, 8)
        c.put(t + c.latency + c.h - 1, WRITE | bank(1) | column(16))
    return with_fault(part, seed, fault, 12)


def read_into_auto_precharge(part, seed):
    def fault(c):
        c.open_row(3, 1200)
        c.open_row(0, 9)
        t = c.read(0, 8, auto=True)
        c.put(t + c.h - 1, READ | bank(3) | column(4))
    return with_fault(part, seed, fault, 13)


def mode_set_latency_4(part, seed):
    def fault(c):
        c.mode_set(mode_word(4, False, 4))
    return with_fault(part, seed, fault, 2)


def late_refresh(part, seed):
    """The controller stops refreshing; the first event with nine owed is late."""
    c = Controller(part, seed)
    c.run(6000)
    c.refreshing = False
    return until_late(c, nine_owed(c.events, part["tREFI"]))


def one_refresh_in_eight(part, seed):
    """Never more than eight tREFI without a refresh, which passed until request K3; the first pays for one of seven."""
    c = Controller(part, seed, refreshes_every=8 * part["tREFI"] - part["tREFI"] // 2)
    c.run(3000)
    first = next(i for i, (_, pins) in enumerate(c.events) if pins == AUTO_REFRESH)
    return until_late(c, nine_owed(c.events[:first + 1], part["tREFI"]))


def until_late(c, late):
    while c.events[-1][0] < late:
        c.run(len(c.events) + 1)
    at = next(i for i, (cycle, _) in enumerate(c.events) if late <= cycle)
    c.run(at + 40)
    return capture(c.events, settings_of(c.part)), broken_lines(c.events, 14, at)


def unknown_latency(part, seed):
    c = Controller(part, seed)
    c.run(100)
    return capture(c.events, settings_of(dict(part, mode=mode_word(4, False, 4)))), ["refused 3 place 3"]


def mistyped_trc(part, seed):
    """Clean traffic, and a 0 too many behind tRC."""
    c = Controller(part, seed)
    c.run(300)
    return capture(c.events, settings_of(dict(part, tRC=10 * part["tRC"]))), ["refused 3 place 7"]


def cut_short(part, seed):
    data, _ = clean_run(part, seed)
    return data[:3000], ["refused 1 place 0"]


def long_run(part, seed):
    c = Controller(part, seed)
    while c.next < 70_000:
        c.run(len(c.events) + 20)
    return c


def stamps_of_16_bits(part, seed):
    """A recorder whose cycle counter has 16 bits: it starts again at 65,536."""
    c = long_run(part, seed)
    at = next(i for i, (cycle, _) in enumerate(c.events) if 65_536 <= cycle)
    return capture([(cycle % 65_536, pins) for cycle, pins in c.events], settings_of(part)), [f"refused 4 place {at}"]


# ---- samples of a controller that cuts writes short, which edition 1 allows

def interrupted_writes(part):
    """Of one seed, so that the same events are judged in both editions."""
    c = Controller(part, 1, interrupts=True)
    run_in_two_modes(c)
    return c


def clean_interrupted_writes(part, _):
    c = interrupted_writes(part)
    return capture(c.events, settings_of(part), edition=1), clean_lines(c.events)


def interrupted_in_edition_0(part, _):
    c = interrupted_writes(part)
    at, rule = c.first_cut
    return capture(c.events, settings_of(part)), broken_lines(c.events, rule, at)


# ---- samples of a controller that puts the part to sleep between frames

def clean_frames(part, seed, sleep):
    c = Controller(part, seed)
    c.frames(900, lambda: sleep(c))
    c.mode_set(mode_word(8, True, cas_latency(part["mode"])))
    c.frames(1800, lambda: sleep(c))
    return capture(c.events, settings_of(part, SETTINGS + WAKE)), clean_lines(c.events)


def clean_power_down(part, seed):
    return clean_frames(part, seed, Controller.nap)


def clean_self_refresh(part, seed):
    """With an AUTO REFRESH behind each, as data sheets advise."""
    def sleep(c):
        c.hibernate()
        c.auto_refresh()
    return clean_frames(part, seed, sleep)


def frames_with_fault(part, seed, fault, rule):
    c = Controller(part, seed)
    c.frames(200 + c.below(100), c.nap if c.below(2) else c.hibernate)
    return continued(c, fault, rule, SETTINGS + WAKE)


def active_before_txp(part, seed):
    def fault(c):
        c.close_rows()
        c.power_down()
        c.stay(part["tRC"])
        t = c.wake(part["tXP"])
        c.put(t + part["tXP"] - 1, ACTIVE | bank(2) | 77)
    return frames_with_fault(part, seed, fault, 15)


def active_before_txsr(part, seed):
    def fault(c):
        t = c.hibernate()
        c.put(t + part["tXSR"] - 1, ACTIVE | bank(1) | 5)
    return frames_with_fault(part, seed, fault, 15)


def power_down_in_read(part, seed):
    def fault(c):
        c.open_row(1, 300)
        t = c.read(1, 8)
        c.put(t + c.latency + c.h - 1, NOP | LOW)
    return frames_with_fault(part, seed, fault, 15)


def power_down_in_write(part, seed):
    def fault(c):
        c.open_row(3, 1200)
        t = c.write(3, 12)
        c.put(t + 1 + c.h - 1, NOP | LOW)
    return frames_with_fault(part, seed, fault, 15)


def precharge_while_low(part, seed):
    """Of banks that are idle, so that only sleep is in its way."""
    def fault(c):
        c.close_rows()
        c.power_down()
        c.stay(40)
        c.put(c.next, PRECHARGE | A10 | LOW)
    return frames_with_fault(part, seed, fault, 15)


def active_at_exit(part, seed):
    def fault(c):
        c.self_refresh()
        c.stay(16 * part["tREFI"])
        c.put(c.next, ACTIVE | bank(2) | 9)
    return frames_with_fault(part, seed, fault, 15)


def late_refresh_asleep(part, seed):
    """Power-down does not refresh; the first event with nine owed is late."""
    def fault(c):
        c.auto_refresh()
        c.power_down()
        late = nine_owed(c.events, part["tREFI"])
        c.put(late - 1, NOP | LOW)
        c.put(late, NOP)
    return frames_with_fault(part, seed, fault, 14)


def power_down_before_trfc(part, seed):
    def fault(c):
        t = c.auto_refresh()
        c.put(t + part["tRFC"] - 1, NOP | LOW)
    return frames_with_fault(part, seed, fault, 4)


def blanked_one(name):
    """Another sample, of the same part, with its addresses blanked."""
    def make(part, _):
        seed, of = next((seed, of) for seed, (known, _, of, _) in enumerate(SAMPLES, 1) if known == name)
        data, lines = of(part, seed)
        return blanked(data), lines
    return make


# ---- events further apart than the stamps of an export can tell

# A part that is hardly ever to be refreshed: those of the data sheets owe nine refreshes long before.
RARE = setting(13, 100_000)


def seldom():
    """A row is opened, read, and closed when its refreshes are due; clean."""
    events, t = [], 500
    for turn in range(6):
        events += [(t, ACTIVE | bank(turn % 4) | 100 + turn), (t + 3, READ | bank(turn % 4) | column(8 * turn))]
        events += [(t + 80_000, WRITE | bank(turn % 4) | column(8)), (t + 80_010, PRECHARGE | A10), (t + 80_013, AUTO_REFRESH)]
        t += (65_535, 131_071, 200_000)[turn % 3] + 80_013
    return events


def far_apart(*_):
    return capture(seldom(), RARE), clean_lines(seldom())


PAUSED_SEED = 9


def paused(part):
    """Traffic that stops for 100,000 cycles. A READ of a closed bank is what comes then, and breaks rule 3."""
    c = Controller(part, PAUSED_SEED)
    c.run(300)
    c.close_rows()
    at = len(c.events)
    c.put(c.next + 100_000, READ | bank(1) | column(4))
    c.run(at + 40)
    return c.events, at


def read_after_a_pause(part, _):
    events, at = paused(part)
    return capture(events, settings_of(part)), broken_lines(events, 3, at)


# ---- exports, each with what the report says of the capture that is read from it, under the settings of the sample named so

def export_of_a_long_run(part, seed):
    c = long_run(part, seed)
    return export(c.events), clean_lines(c.events)


def export_of_far_apart(*_):
    return export(seldom()), clean_lines(with_nops(seldom()))


def export_of_a_pause(part, _):
    """The first NOP in the pause comes when nine refreshes have long been owed; it stands where the READ did."""
    events, at = paused(part)
    return export(events), broken_lines(with_nops(events), 14, at)


# ---- plays: a capture, a window and words with their masks, and what the program `play` says; under the settings of document 01's
# cases, lane code 1, so that the upper half of a cell stays and is not read

def play(events, window, writes, read, cells):
    """The window stands from cell 0 on."""
    behind = [0, len(window), *window, *(word for pair in writes for word in pair)]
    lines = [f"words {len(read)}", *(f"word 0x{word:08x}" for word in read)]
    lines += [f"cell {i} 0x{word:08x}" for i, word in enumerate(cells)]
    return capture(events) + b"".join(word.to_bytes(4, "little") for word in behind), lines


def write_and_read(*_):
    """Masks 0 to 3: both bytes, the upper one, the lower one, none."""
    events = [(0, ACTIVE), (3, WRITE | column(1)), (7, READ | column(0))]
    writes = [(0x11111111, 0), (0x22222222, 1), (0x33333333, 2), (0x44444444, 3)]
    cells = [0xAAAA0000, 0xAAAA1111, 0xAAAA2202, 0xAAAA0033]
    return play(events, [0xAAAA0000 + i for i in range(8)], writes, [cell & 0xFFFF for cell in cells],
                cells + [0xAAAA0000 + i for i in range(4, 8)])


def cut_write(*_):
    """The second WRITE leaves the first two words, and has the four behind those that the first one took."""
    events = [(0, ACTIVE), (3, WRITE), (4, WRITE | column(8)), (8, READ)]
    cells = [0x100, 0x101] + [0] * 6 + [0x104, 0x105, 0x106, 0x107]
    return play(events, [0] * 12, [(0x100 + i, 0) for i in range(8)], cells[:4], cells)


# ---- samples written by the library's scheduler: clean, since every schedule is

SERVED_SEED = 8


def requests_of(part, events):
    """The bursts of a controller's traffic, each as a request."""
    requests, rows = [], {}
    for _, pins in events:
        command, of_bank = pins & 0xF0000, pins >> 14 & 3
        if command == ACTIVE:
            rows[of_bank] = pins & 0x3FFF
        elif command in (READ, WRITE):
            at = pins & 0x3FF | (pins >> 11 & 1) << 10
            cell = (of_bank << part["rowbits"] | rows[of_bank]) << part["colbits"] | at
            requests.append(cell | (WRITES if command == WRITE else 0))
    return requests


def clean_schedule(part, policy):
    """Both policies serve the same traffic."""
    c = Controller(part, SERVED_SEED)
    c.run(900)
    data = scheduled(settings_of(part), requests_of(part, c.events), policy)
    return data, clean_lines(events_in(data))


def open_rows(part, seed):
    return clean_schedule(part, OPEN_ROWS)


def closed_rows(part, seed):
    return clean_schedule(part, CLOSED_ROWS)


def case_b(part, seed):
    events = [(0, ACTIVE), (2, READ)]
    return capture(events), broken_lines(events, 8, 1)


def rows_asked(part, seed):
    """The first worked line of request K9."""
    events = [(0, ACTIVE | 5), (2, ACTIVE | bank(1) | 6), (5, READ), (9, PRECHARGE), (12, ACTIVE | 7), (13, NOP)]
    return capture(events), clean_lines(events)


def rows_asked_asleep(part, seed):
    """Rows left open in power-down and closed by auto precharge and by PRECHARGE of all, under the settings of the cases."""
    events = [(0, ACTIVE | bank(2) | 9), (3, ACTIVE | 77), (6, READ | A10), (20, NOP | LOW), (60, NOP), (62, ACTIVE | 78),
              (65, WRITE | bank(2)), (80, PRECHARGE | A10)]
    return capture(events, SLEEPY), clean_lines(events)


SAMPLES = [
    ("clean-MT46H128M16LF", ("MT46H128M16LF", "-48 CL3"), clean_run, "traffic that keeps every rule; columns of 11 bits"),
    ("clean-W948D6KBHX", ("W948D6KBHX", "-6 CL2"), clean_run, "the same at CAS latency 2"),
    ("clean-IS43LR32400G", ("IS43LR32400G", "-6 CL3"), clean_run, "the same, of a part with 12 row and 8 column bits"),
    ("clean-MT46H32M32LF", ("MT46H32M32LF", "-75 CL3"), clean_run, "the same at 7.5 ns a cycle"),
    ("clean-MT46H64M16LF", ("MT46H64M16LF", "-54 CL3"), clean_run, "the same at 5.4 ns a cycle"),
    ("read-before-tRCD", None, case_b, "case b of document 01 with its settings: READ two cycles after ACTIVE"),
    ("tRCD", ("IS43LR32400G", "-6 CL3"), read_before_trcd, "READ a cycle before tRCD is over"),
    ("tWTR", ("MT46H64M16LF", "-5 CL3"), read_before_twtr, "READ a cycle too soon after the data of a WRITE to another bank"),
    ("tWR", ("W948D6KBHX", "-6 CL2"), precharge_before_twr, "PRECHARGE a cycle too soon after the data of a WRITE"),
    ("refresh-with-open-row", ("MT46H32M32LF", "-75 CL3"), refresh_with_open_row,
     "AUTO REFRESH while the row of bank 2 is open"),
    ("mode-set-latency-4", ("MT46H64M32LF", "-48 CL3"), mode_set_latency_4, "MODE REGISTER SET with a CAS latency of 4"),
    ("late-refresh", ("MT46H128M16LF", "-48 CL3"), late_refresh, "a large capture; refreshing stops, until nine are owed"),
    ("setting-latency-4", ("W948D6KBHX", "-5 CL3"), unknown_latency, "a mode word among the settings with CAS latency 4"),
    ("cut-short", ("MT46H64M16LF", "-6 CL3"), cut_short, "the first 3,000 bytes of a longer capture"),
    ("cycles-of-16-bits", ("IS43LR32400G", "-6 CL3"), stamps_of_16_bits, "a recorder whose cycles start again at 65,536"),
    ("clean-power-down", ("MT46H64M16LF", "-5 CL3"), clean_power_down,
     "16 settings: frames of traffic, power-down between them"),
    ("clean-self-refresh", ("IS43LR32400G", "-6 CL3"), clean_self_refresh, "the same with self refresh, often longer than nine tREFI"),
    ("tXP", ("MT46H128M16LF", "-48 CL3"), active_before_txp, "ACTIVE a cycle before tXP is over"),
    ("tXSR", ("W948D6KBHX", "-6 CL2"), active_before_txsr, "ACTIVE a cycle before tXSR is over"),
    ("power-down-in-read", ("MT46H32M32LF", "-75 CL3"), power_down_in_read,
     "CKE falls a cycle before read data is off the bus"),
    ("power-down-in-write", ("MT46H64M16LF", "-54 CL3"), power_down_in_write, "CKE falls a cycle before write data is in"),
    ("precharge-while-low", ("IS43LR32400G", "-6 CL3"), precharge_while_low, "PRECHARGE in power-down"),
    ("active-at-exit", ("MT46H64M32LF", "-48 CL3"), active_at_exit, "CKE rises with ACTIVE where it may with NOP and DESELECT"),
    ("late-refresh-asleep", ("W948D6KBHX", "-5 CL3"), late_refresh_asleep, "in power-down the ninth refresh comes to be owed"),
    ("power-down-before-tRFC", ("MT46H128M16LF", "-48 CL3"), power_down_before_trfc,
     "CKE falls with NOP a cycle before tRFC is over"),
    ("setting-tRC-100", ("W948D6KBHX", "-6 CL3"), mistyped_trc, "clean traffic, and a tRC of 100 typed where the sheet has 10"),
    ("one-refresh-in-eight", ("MT46H64M16LF", "-75 CL3"), one_refresh_in_eight,
     "one AUTO REFRESH for nearly eight tREFI, over and over"),
    ("clean-interrupted-writes", ("W948D6KBHX", "-6 CL3"), clean_interrupted_writes,
     "edition 1: writes cut short by READ and by PRECHARGE, as sheet 001 shows it"),
    ("interrupted-writes-edition-0", ("W948D6KBHX", "-6 CL3"), interrupted_in_edition_0, "the same events in edition 0"),
    ("tWTR-edition-1", ("MT46H64M16LF", "-5 CL3"), read_before_a_pair_is_in,
     "edition 1: READ a cycle too soon after a WRITE to another bank to leave it one pair"),
    ("tWR-edition-1", ("MT46H32M32LF", "-75 CL3"), precharge_before_a_pair_is_in,
     "edition 1: PRECHARGE a cycle too soon after a WRITE to leave it one pair"),
    ("tWTR-blanked", ("MT46H64M16LF", "-5 CL3"), blanked_one("tWTR"), "the sample tWTR, rows and columns blanked"),
    ("schedule-open-rows", ("MT46H64M16LF", "-5 CL3"), open_rows, "written by `morgazell_schedule`, rows left open"),
    ("schedule-closed-rows", ("MT46H64M16LF", "-5 CL3"), closed_rows, "the same requests, each row closed behind its burst"),
    ("row-not-there", ("IS43LR32400G", "-6 CL3"), row_that_is_not_there, "ACTIVE of a row that a part of 12 row bits lacks"),
    ("tRP", ("MT46H64M32LF", "-48 CL3"), active_before_trp, "ACTIVE a cycle before tRP is over"),
    ("tRRD", ("MT46H64M16LF", "-5 CL3"), active_before_trrd, "ACTIVE of another bank a cycle before tRRD is over"),
    ("tRAS", ("MT46H32M32LF", "-75 CL3"), precharge_before_tras, "PRECHARGE a cycle before tRAS is over"),
    ("write-into-read-data", ("W948D6KBHX", "-5 CL3"), write_into_read_data,
     "WRITE a cycle before the data of a READ is off the bus"),
    ("read-into-auto-precharge", ("MT46H128M16LF", "-48 CL3"), read_into_auto_precharge,
     "READ a cycle before a READ with auto precharge has ended"),
    ("open-rows", None, rows_asked, "for `openings`: rows of two banks, one closed, two left open at the end"),
    ("open-rows-asleep", None, rows_asked_asleep,
     "for `openings`, 16 settings: a row that stays open in power-down, and one that auto precharge closes at once"),
    ("far-apart", None, far_apart, "a tREFI of 100,000, and events up to 200,000 cycles apart"),
    ("read-after-a-pause", ("MT46H64M16LF", "-5 CL3"), read_after_a_pause, "READ of a closed bank after 100,000 cycles without a refresh"),
]

# Exports of what is behind the sample of that name.
EXPORTS = [
    ("cycles-of-16-bits", export_of_a_long_run, "the same recording as a handheld writes it: its cycles are got back"),
    ("far-apart", export_of_far_apart, "the sample as an export, with NOPs between events that are far apart"),
    ("read-after-a-pause", export_of_a_pause, "the sample as an export; the NOP that was put in is an event with nine owed"),
]

PLAYS = [
    ("write-and-read", write_and_read, "a WRITE under four masks and a READ of what it left, played on eight cells"),
    ("cut-write", cut_write, "a WRITE cut by the next one, which takes the words behind all four of the first"),
]


def row(file, key, part, shows, lines):
    of = f"{key[0]} {key[1]}, x{part['width']}" if key else "-"
    return f"| `{file}` | {of} | {shows} | {'<br>'.join(f'`{line}`' for line in lines)} |"


def sample(file, folder, key, part, shows, made):
    data, lines = made
    with open(os.path.join(folder, file), "wb") as f:
        f.write(data)
    print(row(file, key, part, shows, lines))


def main(folder):
    known = parts()
    seeds = {}
    for seed, (name, key, make, shows) in enumerate(SAMPLES, 1):
        part = known.get(key)
        seeds[name] = key, part, seed
        sample(name + ".capture", folder, key, part, shows, make(part, seed))
    for name, make, shows in EXPORTS:
        key, part, seed = seeds[name]
        sample(name + ".export", folder, key, part, shows, make(part, seed))
    for name, make, shows in PLAYS:
        sample(name + ".play", folder, None, None, shows, make())


if __name__ == "__main__":
    main(sys.argv[1] if len(sys.argv) > 1 else HERE)
