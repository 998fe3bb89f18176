#!/usr/bin/env python3
"""Runs the program month on streams of captures, and holds what it prints to the request's own lines, to the second
implementation (tests/second/src/bin/months.rs) on every clause and on seeded streams, and the table of --csv to the text.
Progress is looked at on a terminal of its own."""
import os
import pty
import re
import subprocess
import sys
import tempfile

HERE = os.path.dirname(os.path.abspath(__file__))
sys.path.insert(0, os.path.join(HERE, ".."))
from arguments import tried
from captures import ACTIVE, LOW, NOP, READ, SLEEPY, WRITE, capture, quiet, setting, words
from running import from_file, from_pipe, program, unreadable

SECOND = os.path.join(HERE, "..", "second")
SAMPLES = os.path.join(HERE, "..", "..", "samples")

UNDONE = "there are no totals"

FOUR = capture([(0, ACTIVE), (3, READ | 5), (4, READ | 8), (20, WRITE)])
LATE = capture([(0, ACTIVE), (2, READ)])
LANES = capture([], setting(0, 3))
EMPTY = capture([])

# As the request has them.
WORKED = """\
capture 0 events 4 judged 4 clean read 6 written 4 bus 10 over 40
capture 1 events 2 judged 1 broken rule 8 event 1 cycle 2 read 0 written 0 bus 0 over 0
capture 2 events 0 judged 0 refused 3 place 0 read 0 written 0 bus 0 over 0
capture 3 events 0 judged 0 clean read 0 written 0 bus 0 over 0
all captures 4 clean 2 broken 1 refused 1 events 6 judged 5 read 6 written 4 bus 10 over 40
"""
NOTHING = "all captures 0 clean 0 broken 0 refused 0 events 0 judged 0 read 0 written 0 bus 0 over 0\n"

HEAD = "capture,captures,clean,broken,refused,events,judged,rule,event,cycle,refusal,place,read,written,bus,over\n"


def stating(total, rest=b""):
    """A capture whose total word says this, and bytes behind it."""
    return words([total]) + EMPTY[4:] + rest


# Name, stream, and whether it is long.
STREAMS = [
    ("the worked lines", FOUR + LATE + LANES + EMPTY),
    ("nothing", b""),
    ("one capture", FOUR),
    ("1 byte", b"\x50"),
    ("2 bytes", b"\x50\0"),
    ("3 bytes", b"\x50\0\0"),
    ("a total word alone", words([80])),
    ("total 0", stating(0, EMPTY)),
    ("total 0 alone", words([0])),
    ("total 3", stating(3, EMPTY)),
    ("total 4", stating(4, EMPTY)),
    ("total 79", stating(79, EMPTY)),
    ("total 81 of 80 bytes", stating(81)),
    ("total 81 of 81 bytes, and a capture", stating(81, b"\0" + EMPTY)),
    ("a byte too few", EMPTY[:79]),
    ("a byte too few behind a capture", FOUR + EMPTY[:79]),
    ("3 bytes behind a capture", FOUR + b"\0\0\0"),
    ("total 64,080, the most of 14 settings", quiet(8000) + FOUR),
    ("total 64,081", words([64_081]) + quiet(8000)[4:] + b"\0" + FOUR),
    ("total 64,088, the most of all", quiet(8000, SLEEPY) + FOUR),
    ("total 64,088 of 14 settings", quiet(8001) + FOUR),
    ("total 64,089", words([64_089]) + quiet(8000, SLEEPY)[4:] + b"\0" + FOUR),
    ("total 64,089, few bytes", stating(64_089)),
    ("the largest total", stating(0xFFFFFFFF, FOUR)),
    ("refusals 2, 3 and 4 do not end it", capture([], edition=2) + LANES + capture([(5, NOP), (5, NOP)]) + FOUR),
    ("a refusal 1 in the middle", FOUR + stating(0) + FOUR + FOUR),
    ("editions and sleep", capture([(0, ACTIVE), (3, WRITE), (6, READ)], setting(3, 0x33), edition=1)
     + capture([(0, ACTIVE), (3, READ), (20, NOP | LOW)], SLEEPY)),
    ("the last cycle", capture([(2_000_000_000, NOP)], setting(13, 1_000_000)) + capture([(9_000, NOP)])),
    ("10,000 captures", EMPTY * 10_000),
    ("10,000 captures and a byte", EMPTY * 10_000 + b"\0"),
    ("10,001 captures", EMPTY * 10_001),
    ("a refusal 1 of the last", EMPTY * 9_999 + stating(0) + EMPTY),
    ("a refusal 3 of the last, and a byte", EMPTY * 9_999 + LANES + b"\0"),
    ("many longest captures", quiet(8000, SLEEPY) * 40),
]

# What has to be in the text of a stream, from the request.
SAID = {
    "the worked lines": WORKED,
    "nothing": NOTHING,
    "10,000 captures and a byte": "\nrefused 14 place 10000\n",
    "a refusal 1 of the last": "\nstream ends at capture 9999\nall captures 10000 clean 9999 broken 0 refused 1 ",
    "3 bytes behind a capture": "\ncapture 1 events 0 judged 0 refused 1 place 0 read 0 written 0 bus 0 over 0\nstream ends at capture 1\n",
}

wrong = []
count = 0


def expect(holds, what, *found):
    global count
    count += 1
    if not holds:
        wrong.append(what)
        print(f"WRONG {what}:", *(f"{one!r:.600}" for one in found))


def second(*arguments):
    run = ["cargo", "run", "--quiet", "--offline", "--release", "--bin", "months", "--", *arguments]
    return subprocess.run(run, cwd=SECOND, stdout=subprocess.PIPE, text=True, check=True).stdout


def text_of(stream):
    with tempfile.NamedTemporaryFile() as f:
        f.write(stream)
        f.flush()
        return second(f.name)


# ---- the table, from the text

LINE = re.compile(r"capture (\d+) events (\d+) judged (\d+) (.*) read (\d+) written (\d+) bus (\d+) over (\d+)$")
ALL = re.compile(r"all captures (\d+) clean (\d+) broken (\d+) refused (\d+) events (\d+) judged (\d+) "
                 r"read (\d+) written (\d+) bus (\d+) over (\d+)$")


def row(line):
    if found := LINE.match(line):
        i, events, judged, verdict, *bus = found.groups()
        kinds = ["1"] + [str(int(verdict.startswith(kind))) for kind in ("clean", "broken", "refused")]
        numbers = re.findall(r"\d+", verdict)
        told = {"clean": [""] * 5, "broken": numbers + [""] * 2, "refused": [""] * 3 + numbers}[verdict.split()[0]]
        return [i, *kinds, events, judged, *told, *bus]
    if found := ALL.match(line):
        numbers = found.groups()
        return ["all", *numbers[:6], *[""] * 5, *numbers[6:]]
    if found := re.match(r"stream ends at capture (\d+)$", line):
        return ["ends", *[""] * 9, "1", found.group(1), *[""] * 4]
    number, place = re.match(r"refused (\d+) place (\d+)$", line).groups()
    return ["all", *[""] * 9, number, place, *[""] * 4]


def table_of(text):
    rows = [row(line) for line in text.splitlines()]
    assert all(len(cells) == HEAD.count(",") + 1 for cells in rows)
    return HEAD + "".join(",".join(cells) + "\n" for cells in rows)


# ---- runs

def each_stream():
    for name, stream in STREAMS:
        text = text_of(stream)
        expect(SAID.get(name, "") in text, f"{name}, the second implementation", text[-300:])
        run = from_file("month", stream)
        expect(run.stdout.decode() == text and not run.stderr, name, run.stdout[-300:], text[-300:], run.stderr)
        with tempfile.NamedTemporaryFile() as f:
            f.write(stream)
            f.flush()
            for arguments in ([f.name, "--csv"], ["--csv", f.name]):
                run = subprocess.run(program("month") + arguments, capture_output=True, timeout=120)
                expect(run.stdout.decode() == table_of(text) and not run.stderr, f"{name}, {arguments}", run.stdout[-300:], run.stderr)
        if len(stream) < 2_000:
            size = 1 if len(stream) < 200 else 7
            run = from_pipe("month", stream, size, 0.001)
            expect(run.stdout.decode() == text and not run.stderr, f"{name}, in pieces of {size}", run.stdout, run.stderr)


def seeded(seed, streams):
    with tempfile.TemporaryDirectory() as folder:
        second(str(seed), str(streams), folder)
        for i in range(streams):
            with open(os.path.join(folder, f"{i}.stream"), "rb") as f, open(os.path.join(folder, f"{i}.text")) as said:
                run, text = from_file("month", f.read()), said.read()
            expect(run.stdout.decode() == text and not run.stderr, f"stream {i} of seed {seed}", run.stdout, text, run.stderr)


def month_of_samples():
    """Every sample in the order of their names, the one that is cut short last."""
    names = sorted(name for name in os.listdir(SAMPLES) if name.endswith(".capture") and name != "cut-short.capture")
    stream = b""
    for name in names + ["cut-short.capture"]:
        with open(os.path.join(SAMPLES, name), "rb") as f:
            stream += f.read()
    run, text = from_file("month", stream), text_of(stream)
    expect(run.stdout.decode() == text and not run.stderr, "a month of the samples", run.stdout[-300:], text[-300:], run.stderr)
    expect(f"\nstream ends at capture {len(names)}\nall captures {len(names) + 1} " in text, "its end", text[-300:])


def on_terminal(stream, arguments=()):
    """What was printed, and what a terminal on standard error was sent."""
    ours, theirs = pty.openpty()
    with tempfile.TemporaryFile() as f:
        f.write(stream)
        f.seek(0)
        run = subprocess.run(program("month") + list(arguments), stdin=f, stdout=subprocess.PIPE, stderr=theirs, timeout=120)
    os.close(theirs)
    shown = b""
    try:
        while piece := os.read(ours, 4096):
            shown += piece
    except OSError:  # the end, on a terminal
        pass
    os.close(ours)
    return run.stdout, shown


def progress():
    clear = b" " * 21 + b"\r"
    for captures, times in ((0, 0), (255, 0), (256, 1), (600, 2), (1024, 4), (10_000, 39)):
        out, shown = on_terminal(EMPTY * captures)
        lines = b"".join(b"month: %d captures\r" % (256 * (i + 1)) for i in range(times))
        expect(shown == lines + (clear if times else b""), f"progress of {captures} captures", shown)
        expect(out.count(b"\n") == captures + 1, f"lines of {captures} captures", out[-300:])
    longest = b"month: 9984 captures"
    expect(len(longest) < len(clear) and len(longest) < len(NOTHING), "what covers the progress", longest)


def main():
    each_stream()
    seeded(1, 150)
    month_of_samples()
    progress()
    for name, run in unreadable("month"):
        expect(not run.stdout and UNDONE.encode() in run.stderr, name, run.stdout, run.stderr)
    lines, badly = tried("month", UNDONE, FOUR, text_of(FOUR).encode(), LATE + EMPTY, text_of(LATE + EMPTY).encode(),
                         option="--csv")
    print(f"month: {count} expectations, {lines} lines of arguments, {len(wrong) + badly} wrong")
    return 1 if wrong or badly else 0


sys.exit(main())
