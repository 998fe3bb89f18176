"""Answers, settings, rules and commands in words. The words of commands are the listing's (docs/LISTING.md)."""
import struct

from .capture import COLUMN_BITS, LAST_CYCLE, LIMITS, MODE, MOST_EVENTS, NAMES, T_RAS, T_RC, T_RP, column_of

# What is wrong where a rule is broken.
BROKEN = {1: "a row that the part does not have", 2: "a register that may not be set so",
          3: "a bank that is open or idle when it must not be", 4: "tRFC or tMRD is not over", 5: "tRP is not over",
          7: "tRRD is not over", 8: "tRCD is not over", 9: "tRAS is not over", 10: "tWR is not over", 11: "tWTR is not over",
          12: "the data of a READ are still on the bus", 13: "a burst is cut that may not be cut",
          14: "more than eight refreshes are owed", 15: "sleep is entered or left wrongly, or tXP or tXSR is not over"}

# What each rule is about.
TITLES = {1: "the row exists", 2: "the register may be set so", 3: "open or idle, as the command needs it",
          4: "tRFC and tMRD, refresh and mode set are over", 5: "tRP, precharge to ACTIVE",
          7: "tRRD, ACTIVE to ACTIVE of another bank", 8: "tRCD, ACTIVE to READ or WRITE", 9: "tRAS, ACTIVE to PRECHARGE",
          10: "tWR, write data to PRECHARGE", 11: "tWTR, write data to READ", 12: "read data has left the bus",
          13: "bursts that may not be cut", 14: "tREFI, at most eight refreshes owed",
          15: "CKE, power-down and self refresh"}

# Commands in a picture.
SHORT = {"ACTIVE": "ACT", "READ": "RD", "WRITE": "WR", "BURST TERMINATE": "BST", "PRECHARGE": "PRE", "AUTO REFRESH": "REF",
         "MODE REGISTER SET": "MRS", "NOP": "NOP", "DESELECT": "DES"}

HEADER = ["total bytes", "settings count", "settings start", "events", "events start", "edition"]


def number(n):
    return f"{n:,}"


def cycles(n):
    return f"{n:,} cycle" + ("" if n == 1 else "s")


def command(event, column_bits):
    """A command as the listing has it."""
    return command_alone(event, column_bits) + (", CKE low" if event.low else "")


def command_alone(event, column_bits):
    name = event.command
    if name == "ACTIVE":
        return f"ACTIVE bank {event.bank} row {event.address}"
    if event.bursts:
        column = column_of(event.address, column_bits)
        return f"{name} bank {event.bank} column {column}" + (" auto precharge" if event.a10 else "")
    if name == "PRECHARGE":
        return "PRECHARGE ALL" if event.a10 else f"PRECHARGE bank {event.bank}"
    if name == "MODE REGISTER SET":
        return f"MODE REGISTER SET register {event.bank:02b} value 0x{event.address:04x}"
    return name


def event(capture, i):
    return command(capture.events[i], capture.settings[COLUMN_BITS])


def short(event):
    many = event.a10 and event.command in ("READ", "WRITE", "PRECHARGE")
    return SHORT[event.command] + ("A" if many else "")


def mode(word):
    order = "interleaved" if word & 8 else "sequential"
    return f"burst length {1 << (word & 7)}, {order}, CAS latency {word >> 4 & 7}"


# ---- why a file is refused

def refused(data, size, answer):
    """A sentence for each of refusals 1 to 4, with what the file has there."""
    by = {1: refused_length, 2: refused_header, 3: refused_setting, 4: refused_event}
    return by[answer.refusal](data, size, answer.value)


def header(data):
    return struct.unpack_from(f"<{min(6, len(data) // 4)}I", data)


def is_capture_like(words):
    """Whether the first words could be a capture's at all."""
    return len(words) == 6 and words[1] in (14, 16) and words[2] == 24


def refused_length(data, size, _):
    words = header(data)
    if len(words) < 6:
        return f"it has {number(size)} bytes, too few to be a capture"
    if not is_capture_like(words):
        return "it is not a capture: its first words are those of another kind of file"
    if words[0] == size and words[3] > MOST_EVENTS:
        return (f"it is a recording of {number(words[3])} events, and a capture has {number(MOST_EVENTS)} at most; "
                "judge --recording takes it")
    if words[0] == size:
        return f"no capture has {number(size)} bytes"
    return f"it says that it has {number(words[0])} bytes and has {number(size)}"


def wanted_header(words):
    """Of each header word whether it is right, and what it should be."""
    start = 88 if words[1] == 16 else 80
    wanted = [number(start + 8 * words[3]), "14 or 16", "24", "0 to 8,000", str(start), "0 or 1"]
    right = [words[0] == start + 8 * words[3], words[1] in (14, 16), words[2] == 24, words[3] <= 8_000,
             words[4] == start, words[5] <= 1]
    return list(zip(right, wanted))


def refused_header(data, _size, _place):
    words = header(data)
    for i, (right, wanted) in enumerate(wanted_header(words)):
        if not right and i != 0:
            return f"header word {i}, {HEADER[i]}, is {number(words[i])} and should be {wanted}"
    return f"header word 0, {HEADER[0]}, is {number(words[0])} and should be {wanted_header(words)[0][1]}"


def settings_in(data):
    count = 16 if header(data)[1] == 16 else 14
    return struct.unpack_from(f"<{count}I", data, 24)


def refused_setting(data, _size, place):
    return wrong_setting(settings_in(data), place)


def wrong_setting(settings, place):
    value, (least, most) = settings[place], LIMITS[place]
    if place == MODE:
        return (f"setting 3, mode word 0x{value:02x}, is none: burst length code {value & 7} (1 to 4), "
                f"CAS latency {value >> 4} (2 or 3)")
    if place == T_RC and least <= value <= most:
        return (f"settings 5, 6 and 7 contradict each other: tRC ({number(value)}) is above tRAS ({number(settings[T_RAS])}) "
                f"+ tRP ({number(settings[T_RP])})")
    return f"setting {place}, {NAMES[place]}, is {number(value)} and may be {number(least)} to {number(most)}"


def event_words(data, i):
    return struct.unpack_from("<2I", data, (88 if header(data)[1] == 16 else 80) + 8 * i)


def refused_event(data, _size, place):
    cycle, pins = event_words(data, place)
    if pins >> (21 if header(data)[1] == 16 else 20):
        return f"event {place} has pins that do not exist (0x{pins:08x})"
    if cycle > LAST_CYCLE:
        return f"event {place} stands at cycle {number(cycle)}, above {number(LAST_CYCLE)}"
    before = event_words(data, place - 1)[0]
    return f"event {place} stands at cycle {number(cycle)}, not above {number(before)} of the event before it"
