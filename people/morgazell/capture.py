"""Captures as bytes: taken apart and put together. What is a capture is the library's to say."""
import struct

NAMES = ["lane code", "row bits", "column bits", "mode word", "tRCD", "tRP", "tRAS", "tRC", "tRRD", "tWR", "tWTR", "tRFC",
         "tMRD", "tREFI", "tXP", "tXSR"]
LANES, ROW_BITS, COLUMN_BITS, MODE = range(4)
T_RP, T_RAS, T_RC, T_REFI = 5, 6, 7, 13
# Least and most of each setting.
LIMITS = [(1, 2), (12, 14), (8, 11), (0, 127)] + [(1, 10_000)] * 9 + [(1, 1_000_000)] + [(1, 10_000)] * 2

LOW = 1 << 20
LAST_CYCLE = 2_000_000_000
MOST_EVENTS = 8_000

# By WE#, CAS#, RAS# and CS#, bits 19 to 16.
COMMANDS = {0b1100: "ACTIVE", 0b1010: "READ", 0b0010: "WRITE", 0b0110: "BURST TERMINATE", 0b0100: "PRECHARGE",
            0b1000: "AUTO REFRESH", 0b0000: "MODE REGISTER SET", 0b1110: "NOP"}
CODES = {name: code << 16 for code, name in COMMANDS.items()}
CODES["DESELECT"] = 1 << 16
A10 = 1 << 10


class Event:
    """One event, with its number; its pins taken apart."""

    def __init__(self, index, cycle, pins):
        self.index, self.cycle, self.pins = index, cycle, pins
        self.low = bool(pins & LOW)
        self.bank = pins >> 14 & 3
        self.address = pins & 0x3FFF
        self.a10 = bool(pins & A10)
        self.command = "DESELECT" if pins >> 16 & 1 else COMMANDS[pins >> 16 & 15]

    @property
    def quiet(self):
        return self.command in ("NOP", "DESELECT")

    @property
    def bursts(self):
        return self.command in ("READ", "WRITE")


class Capture:
    """An accepted capture."""

    def __init__(self, data):
        self.data = data
        _, self.count, _, self.n, self.start, self.edition = struct.unpack_from("<6I", data)
        self.settings = list(struct.unpack_from(f"<{self.count}I", data, 24))
        words = struct.unpack_from(f"<{2 * self.n}I", data, self.start)
        self.events = [Event(i, words[2 * i], words[2 * i + 1]) for i in range(self.n)]

    @property
    def sleeps(self):
        return self.count == 16

    def setting(self, name):
        return self.settings[NAMES.index(name)]

    def first(self, n):
        """The capture of its first n events."""
        return whole(self.edition, self.settings, [(e.cycle, e.pins) for e in self.events[:n]])


def whole(edition, settings, events):
    """The bytes of a capture."""
    start = 24 + 4 * len(settings)
    header = [start + 8 * len(events), len(settings), 24, len(events), start, edition]
    numbers = header + list(settings) + [number for event in events for number in event]
    return struct.pack(f"<{len(numbers)}I", *numbers)


def with_setting(data, place, value):
    """The same capture with another value of a setting."""
    at = 24 + 4 * place
    return data[:at] + struct.pack("<I", value) + data[at + 4:]


def with_times(data, capture, settings):
    """The same capture with the times of other settings."""
    times = settings[4:capture.count]
    return data[:40] + struct.pack(f"<{len(times)}I", *times) + data[capture.start:]


def column_of(address, column_bits):
    """A0-A9 cut to the column bits, and A11 as bit 10 where they are 11."""
    column = address & 0x3FF & (1 << column_bits) - 1
    return column | (address >> 11 & 1) << 10 if column_bits == 11 else column
