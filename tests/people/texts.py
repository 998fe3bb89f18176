"""Captures as text: the identity on accepted ones, in the listing's words; wrong text is refused with its line and column."""
import os
import sys
import tempfile

from asking import JUDGE, SAMPLES, Second, generated, hold, holds, put, read, run, said
from captures import A10, ACTIVE, MODE_REGISTER_SET, NOP, READ, SLEEPY, bank, capture, edition_in, events_in, settings_in

sys.path.append(os.path.join(os.path.dirname(os.path.abspath(__file__)), "..", "listing"))
import rendering

from morgazell.capture import Capture
from morgazell.text import Typed, Wrong, text_of

GOOD = """# a board
edition 0
lane code 1
row bits 13
column bits 10
mode word 0x32
tRCD 3
tRP 3
tRAS 7
tRC 10
tRRD 2
tWR 3
tWTR 1
tRFC 12
tMRD 2
tREFI 1000

0 ACTIVE bank 0 row 5      # the first
3 read bank 0 column 0x5 auto precharge
20 0x000e0001
"""

# What is typed in place of what, and what is said of it.
WRONG = [
    ("edition 0", "edition 2", "line 2, column 1: header word 5, edition, is 2 and should be 0 or 1"),
    ("tRCD 3", "tRCD 0", "line 7, column 1: setting 4, tRCD, is 0 and may be 1 to 10,000"),
    ("tRC 10", "tRC 11", "line 10, column 1: settings 5, 6 and 7 contradict each other: tRC (11) is above tRAS (7) + tRP (3)"),
    ("tRCD 3\n", "", "line 20, column 1: tRCD is missing"),
    ("tRP 3", "tRP", "line 8, column 4: tRP is missing"),
    ("tRP 3", "tRP three", "line 8, column 5: tRP is no number"),
    ("tRP 3", "tRP 3 4", "line 8, column 7: `4` is not expected here"),
    ("tRP 3", "tRCD 3", "line 8, column 1: tRCD stands on line 7 already"),
    ("tRP 3", "tPR 3", "line 8, column 1: `tPR` is no setting, and no cycle"),
    ("tRP 3", "tRP 4294967296", "line 8, column 5: tRP is above 4294967295"),
    ("tRP 3", "tRP \u0663", "line 8, column 5: tRP is no number"),
    ("0 ACTIVE", "0 ACTIV", "line 18, column 3: `ACTIV` is no command"),
    ("bank 0 row 5", "bank 4 row 5", "line 18, column 15: the bank is above 3"),
    ("bank 0 row 5", "row 5", "line 18, column 10: `bank` is missing"),
    ("row 5", "row 16384", "line 18, column 21: the row is above 16383"),
    ("column 0x5", "column 1024", "line 19, column 22: the column is above 1023"),
    ("auto precharge", "auto", "line 19, column 26: `auto` is not expected here"),
    ("3 read bank", "0 read bank", "line 19, column 1: event 1 stands at cycle 0, not above 0 of the event before it"),
    ("20 0x000e0001", "20 0x001e0001", "line 20, column 1: event 2 has pins that do not exist (0x001e0001)"),
    ("20 0x000e0001", "2000000001 NOP", "line 20, column 1: the cycle is above 2000000000"),
    ("20 0x000e0001", "20 NOP, CKE low", "line 20, column 1: event 2 has pins that do not exist (0x001e0000)"),
    ("20 0x000e0001", "20", "line 20, column 3: a command is missing"),
    ("20 0x000e0001", "20 MODE REGISTER SET register 2 value 0", "line 20, column 31: the register is 00, 01, 10 or 11"),
]


def check():
    second = Second()
    round_trips(second)
    listing_words()
    with tempfile.TemporaryDirectory() as folder:
        by_word(folder)
        wrong(folder)
    second.end()


def round_trips(second):
    raw = 0
    for i, data in enumerate(generated(5, 300) + [read(name) for name in SAMPLES]):
        if len(data) <= 20_000 and second(JUDGE, data)[0][0] == 0:
            text = text_of(Capture(data))
            raw += " 0x000" in text
            hold(f"capture {i} as text and back", Typed(text).data, data)
            holds("only what can be typed", text.isascii() and "\t" not in text)
    holds("some pins that no words name", raw > 5)


def listing_words():
    """Settings and events as docs/LISTING.md says them, where the words name every pin."""
    for name in SAMPLES:
        data = read(name)
        if edition_in(data) > 1 or len(data) != int.from_bytes(data[:4], "little"):
            continue
        settings = settings_in(data)
        lines = text_of(Capture(data)).split("\n")
        hold("the edition", lines[0], f"edition {edition_in(data)}")
        for i, value in enumerate(settings):
            if i != 3:
                hold("a setting", lines[1 + i], f"{rendering.NAMES[i]} {value}")
        if settings[3] >> 4 not in (2, 3):
            continue
        for (cycle, pins), line in zip(events_in(data), lines[2 + len(settings):]):
            words = f"{cycle} {rendering.command(pins, settings[2])}"
            if line not in (words, f"{cycle} 0x{pins:08x}  # {rendering.command(pins, settings[2])}"):
                hold(f"{os.path.basename(name)}, an event", line, words)


def by_word(folder):
    typed = put(folder, "a.txt", GOOD)
    made = os.path.join(folder, "a.capture")
    said("capture", run("capture", typed, "-o", made), 0, "", "")
    hold("the bytes", read(made), capture([(0, ACTIVE | 5), (3, READ | A10 | 5), (20, NOP | 1)]))
    hold("from standard input to standard output", run("capture", given=GOOD.encode()).stdout, read(made))
    hold("with other line ends", run("capture", given=GOOD.replace("\n", "\r\n").encode()).stdout, read(made))
    text = run("text", made)
    said("text", text, 0, err="")
    hold("text and back", run("capture", given=text.stdout).stdout, read(made))
    sleepy = capture([(0, MODE_REGISTER_SET | bank(2) | 7), (9, NOP | 1 << 20)], SLEEPY, edition=1)
    hold("sixteen settings", Typed(text_of(Capture(sleepy))).data, sleepy)
    for name in ("clean-self-refresh.capture", "tWTR-edition-1.capture"):
        data = read(os.path.join(os.path.dirname(SAMPLES[0]), name))
        hold(name, run("capture", given=run("text", given=data).stdout).stdout, data)
    said("text of no capture", run("text", given=GOOD.encode()), 2, "")
    many = GOOD + "".join(f"{30 + i} NOP\n" for i in range(7_998))
    said("too many events", run("capture", given=many.encode()), 2, "",
         "morgazell: standard input: line 8018, column 1: a capture has 8000 events at most; nothing was written\n")


def wrong(folder):
    for old, new, complaint in WRONG:
        hold(f"{old} stands once", GOOD.count(old), 1)
        text = GOOD.replace(old, new)
        try:
            typed = Typed(text)
        except Wrong as error:
            hold(f"{new}", str(error), complaint)
            continue
        name, made = put(folder, "b.txt", text), os.path.join(folder, "b.capture")
        said(new, run("capture", name, "-o", made), 2, "", f"morgazell: {name}: {complaint}; nothing was written\n")
        hold(f"{new}: nothing was written", os.path.exists(made), False)
        del typed
    made = os.path.join(folder, "b.capture")
    for given, line, column in ((b"edition 0\nlane \xff", 2, 6), (b"\x00\xfe", 1, 2)):
        said("no text", run("capture", "-o", made, given=given), 2, "",
             f"morgazell: standard input: line {line}, column {column}: this is no text; nothing was written\n")
    ended = run("capture", "-o", made, given="\x1b[31m\u202e".encode())
    said("what a terminal would obey", ended, 2, "")
    holds("it is not sent on", all(0x20 <= byte < 0x7F or byte == 10 for byte in ended.stderr))
    hold("nothing was written", os.path.exists(made), False)
