"""Captures as bytes, built and taken apart by document 01's description of them, for the tests and the samples; and what
the report says of one whose verdict is known."""
import struct

# Where the edition and the settings stand, in bytes; events stand behind them.
EDITION_AT = 20
SETTINGS_AT = 24

# The settings of document 01's cases, and with tXP and tXSR of a part that may sleep.
USUAL = [1, 13, 10, 0x32, 3, 3, 7, 10, 2, 3, 1, 12, 2, 1000]
SLEEPY = USUAL + [2, 20]


def _code(ras, cas, we):
    """The command pins with CS# low; document 01 writes RAS#, CAS#, WE#, which are bits 17, 18, 19."""
    return ras << 17 | cas << 18 | we << 19


ACTIVE = _code(0, 1, 1)
READ = _code(1, 0, 1)
WRITE = _code(1, 0, 0)
BURST_TERMINATE = _code(1, 1, 0)
PRECHARGE = _code(0, 1, 0)
AUTO_REFRESH = _code(0, 0, 1)
MODE_REGISTER_SET = _code(0, 0, 0)
NOP = _code(1, 1, 1)
DESELECT = 1 << 16

# A0 to A13.
ADDRESS = 0x3FFF

# Auto precharge on READ and WRITE, all banks on PRECHARGE.
A10 = 1 << 10

# CKE low, in a capture of 16 settings.
LOW = 1 << 20


def bank(number):
    return number << 14


def column(number):
    """The address pins of a column: bit 10 of an 11-bit column is A11."""
    return number % 1024 | number // 1024 << 11


def mode_word(length, interleaved, latency):
    return length.bit_length() - 1 | interleaved << 3 | latency << 4


def burst_length(mode):
    return 2 ** (mode & 7)


def is_interleaved(mode):
    return mode >> 3 & 1 == 1


def cas_latency(mode):
    return mode >> 4


def words(values):
    return struct.pack("<%dI" % len(values), *values)


def capture(events, settings=USUAL, header=None, edition=0):
    """Laid out for as many settings as there are."""
    n, start = len(events), SETTINGS_AT + 4 * len(settings)
    head = header or [start + 8 * n, len(settings), SETTINGS_AT, n, start, edition]
    return words(head) + words(settings) + b"".join(words(e) for e in events)


def edition_in(data):
    return struct.unpack_from("<I", data, EDITION_AT)[0]


def with_edition(data, edition):
    """The same capture with another sixth word."""
    return data[:EDITION_AT] + words([edition]) + data[SETTINGS_AT:]


def settings_count(data):
    return struct.unpack_from("<I", data, 4)[0]


def events_at(data):
    return SETTINGS_AT + 4 * settings_count(data)


def settings_in(data):
    return list(struct.unpack_from(f"<{settings_count(data)}I", data, SETTINGS_AT))


def event_in(data, i):
    """The two words of event i."""
    return struct.unpack_from("<2I", data, events_at(data) + 8 * i)


def events_in(data):
    return [event_in(data, i) for i in range((len(data) - events_at(data)) // 8)]


def with_settings(data, settings):
    """The same capture under other settings, as many as it has."""
    return data[:SETTINGS_AT] + words(settings) + data[events_at(data):]


def blanked(data):
    """An accepted capture with the pins at 0 that may be hidden: of READ and WRITE all address pins but A10, of an ACTIVE
    whose row the part has all of them."""
    changed, rows = bytearray(data), 1 << settings_in(data)[1]
    for at in range(events_at(data) + 4, len(data), 8):
        pins, = struct.unpack_from("<I", data, at)
        command = pins & 0xF0000
        if command in (READ, WRITE):
            pins &= ~(ADDRESS & ~A10)
        elif command == ACTIVE and pins & ADDRESS < rows:
            pins &= ~ADDRESS
        struct.pack_into("<I", changed, at, pins)
    return bytes(changed)


# ---- exports of the handheld analyser

# How far a stamp of 16 bits can tell.
REACH = 65_535


def with_nops(events):
    """The events with a NOP 65,535 cycles after the last record wherever the next is further away, again and again."""
    records = []
    for cycle, pins in events:
        while records and cycle - records[-1][0] > REACH:
            records.append((records[-1][0] + REACH, NOP))
        records.append((cycle, pins))
    return records


def records(stamped):
    """Records of two and four bytes, lowest first."""
    return b"".join(struct.pack("<HI", *record) for record in stamped)


def export(events):
    """As a handheld analyser would have recorded them."""
    return records([(cycle % 65_536, pins) for cycle, pins in with_nops(events)])


def setting(number, word, settings=USUAL):
    changed = list(settings)
    changed[number] = word
    return changed


def clean_lines(events):
    return [f"events {len(events)}", f"judged {len(events)}", "clean"]


def broken_lines(events, rule, at):
    return [f"events {len(events)}", f"judged {at}", f"broken rule {rule} event {at} cycle {events[at][0]}"]


def quiet(n, settings=USUAL):
    """n NOPs, one a cycle, under a tREFI that allows them."""
    return capture([(i, NOP) for i in range(n)], setting(13, 1_000_000, settings))


def nine_owed(events, trefi):
    """The first cycle at which more than eight refreshes are owed once these events, which keep the rules, have gone by."""
    since = counted = owed = 0
    refreshes_itself = False
    for cycle, pins in events:
        refresh, low = pins & 0xF0000 == AUTO_REFRESH, pins & LOW
        if refreshes_itself:
            if not low:
                refreshes_itself, since, counted, owed = False, cycle, cycle, 0
        elif refresh and low:
            refreshes_itself = True
        elif refresh:
            owed = max(0, owed + (cycle - since) // trefi - (counted - since) // trefi - 1)
            counted = cycle
    return since + ((counted - since) // trefi + 9 - owed) * trefi
