"""The words that call the library with files: schedules, exports, playing, the month, cells, blanked captures, open rows and
margins. What is expected is the second implementation's answer, or a line that a request works out."""
import os
import re
import struct
import tempfile

from asking import (BLANK, CELLS, JUDGE, OPENINGS, READ_EXPORT, ROOT, SAMPLES, SCHEDULE, WRITE_EXPORT, Second, bytes_of, generated, hold,
                    holds, put, read, run, said, words_of)
from captures import ACTIVE, NOP, READ, USUAL, WRITE, bank, capture, events_in, settings_in, with_settings

NEAR = os.path.join(ROOT, "samples")
PART, SHEET = "MT46H64M16LF -5 CL3", [1, 14, 10, 50, 3, 3, 8, 11, 2, 3, 2, 15, 2, 1560]
SETTINGS = "".join(f"{name} {value}\n" for name, value in zip(
    ["lane code", "row bits", "column bits", "mode word", "tRCD", "tRP", "tRAS", "tRC", "tRRD", "tWR", "tWTR", "tRFC", "tMRD", "tREFI"], USUAL))


def sample(name):
    return os.path.join(NEAR, name + ".capture")


def check():
    second = Second()
    with tempfile.TemporaryDirectory() as folder:
        os.chdir(folder)
        put(folder, "board.txt", SETTINGS)
        schedules(second)
        exports(second)
        players()
        months()
        lists(second)
        rows(second)
        margins(second)
        os.chdir(ROOT)
    second.end()


# ---- schedules

def schedules(second):
    text = "read 5\n# a comment\nwrite 2097152   # another\nREAD 0x10\n" * 20
    requests = [5, 1 << 31 | 2097152, 16] * 20
    put(".", "requests.txt", text)
    for words, settings in ((["--part", PART], SHEET), (["--settings", "board.txt"], USUAL),
                            (["--settings", sample("clean-self-refresh")], settings_in(read(sample("clean-self-refresh")))[:14])):
        for policy, number in (("open", 0), ("closed", 1)):
            (refusal, _, _), data = second(SCHEDULE, bytes_of(*settings), bytes_of(*requests), number)
            hold("a schedule", refusal, 0)
            ended = run("schedule", *words, "--policy", policy, "requests.txt", "-o", "x.capture")
            said("schedule", ended, 0, "", "")
            hold("schedule", read("x.capture"), data)
    hold("open is what is meant", run("schedule", "--settings", "board.txt", "requests.txt").stdout,
         second(SCHEDULE, bytes_of(*USUAL), bytes_of(*requests), 0)[1])
    os.unlink("x.capture")
    refused_schedules(second)


def refused_schedules(second):
    def refused(name, given, settings, complaint, numbers):
        put(".", "bad.txt", settings)
        ended = run("schedule", "--settings", "bad.txt", "-o", "x.capture", given=given.encode())
        said(name, ended, 2, "", f"morgazell: {complaint}; nothing was written\n")
        hold(f"{name}: nothing was written", os.path.exists("x.capture"), False)
        if numbers:
            values = [int(word, 0) for word in re.findall(r" (\w+)\n", settings)]
            requests = [int(cell, 0) | (word == "write") << 31 for word, cell in re.findall(r"(\w+) (\w+)", given)]
            hold(name, second(SCHEDULE, bytes_of(*values), bytes_of(*requests), 0)[0], numbers)

    refused("a cell that the part lacks", "read 5\n\nread 33554432\n", SETTINGS,
            "refused 5 place 1: standard input, line 3: the part has no such cell", (5, 0, 1))
    refused("too many", "read 5\n" * 2001, SETTINGS, "refused 5 place 2000: standard input: 2,001 requests, and 2,000 are the most", (5, 0, 2000))
    refused("no refresh", "read 5\n", SETTINGS.replace("tREFI 1000", "tREFI 1"),
            "refused 6 place 0: standard input, line 1: refresh cannot be kept by these settings", (6, 0, 0))
    refused("a setting", "read 5\n", SETTINGS.replace("tRC 10\n", "tRC 11\n"),
            "refused 3 place 7: bad.txt: settings 5, 6 and 7 contradict each other: tRC (11) is above tRAS (7) + tRP (3)", (3, 0, 7))
    refused("a word", "read 5\nerase 7\n", SETTINGS, "standard input: line 2, column 1: `erase` is neither `read` nor `write`", None)
    refused("no cell", "read\n", SETTINGS, "standard input: line 1, column 5: the cell is missing", None)
    refused("a cell above all", "read 134217728\n", SETTINGS, "standard input: line 1, column 6: the cell is above 134217727", None)
    said("no settings", run("schedule", given=b""), 64, "")
    said("two of them", run("schedule", "--part", PART, "--settings", "board.txt", given=b""), 64, "")
    said("no such policy", run("schedule", "--part", PART, "--policy", "shut", given=b""), 64, "")


# ---- exports

def records(*all_of_them):
    return b"".join(struct.pack("<HI", stamp, pins) for stamp, pins in all_of_them)


def exports(second):
    ended = run("import", "--settings", "board.txt", given=records((65000, NOP), (100, NOP), (99, NOP)))
    said("import", ended, 0, err="")
    hold("request K8's cycles", events_in(ended.stdout), [(65000, NOP), (65636, NOP), (131171, NOP)])
    put(".", "r.records", records((5, NOP), (9, ACTIVE | bank(2) | 7)))
    for edition, words in ((1, ["--edition", "1"]), (1, ["--settings"]), (0, [])):
        settings = sample("tWTR-edition-1") if words == ["--settings"] else "board.txt"
        (_, _, _), data = second(READ_EXPORT, read("r.records"), bytes_of(*settings_in(read(settings))[:14] if words == ["--settings"] else USUAL), edition)
        hold("import, edition", run("import", "--settings", settings, *words[:0 if words == ["--settings"] else 2], "r.records").stdout, data)
    for given, words, complaint in (
            (b"1234567", [], "refused 11 place 0: standard input: a record has 6 bytes, and the file no whole number of them"),
            (records((5, NOP), (5, NOP)), [], "refused 11 place 1: standard input: record 1 has the stamp of the one before it"),
            (records((5, NOP), (6, 1 << 20)), [], "refused 4 place 1: standard input: record 1 has pins that do not exist"),
            (records(*((i & 1, NOP) for i in range(8001))), [], "refused 11 place 8000: standard input: over 8,000 records"),
            (records(*((i & 1, NOP) for i in range(50_000))), [], "refused 11 place 8000: standard input: over 8,000 records"),
            (b"", ["--edition", "2"], "refused 2 place 0: the edition is 0 or 1")):
        said("a refused import", run("import", "--settings", "board.txt", *words, given=given), 2, "", f"morgazell: {complaint}; nothing was written\n")
    for name in SAMPLES[:12]:
        (refusal, _, _), data = second(WRITE_EXPORT, read(name))
        ended = run("export", name)
        said(f"export {name}", ended, 2 if refusal else 0)
        hold(f"export {name}", ended.stdout, data)
    for events, settings, why in (([(65536, NOP)], USUAL, "the first event stands at cycle 65,536, above 65,535"),
                                  ([(0, NOP)], USUAL + [2, 20], "records have no CKE, and this capture has sixteen settings"),
                                  ([(0, NOP), (2_000_000_000, NOP)], USUAL, "with a NOP every 65,535 cycles it would have over 8,000 records")):
        said("no export", run("export", given=capture(events, settings)), 2, "", f"morgazell: standard input: refused 12 place 0: {why}; nothing was written\n")


# ---- playing, by the lines that request K12's issue works out

def players():
    data = capture([(0, ACTIVE), (3, WRITE | 1), (7, READ)])
    put(".", "p.capture", data)
    put(".", "window.txt", " ".join(f"0xAAAA000{i}" for i in range(8)))
    put(".", "writes.txt", "0x11111111 0\n0x22222222 1\n0x33333333 2\n0x44444444 3\n")
    words = ["play", "--window", "window.txt", "--writes", "writes.txt"]
    reads = ["0x00000000", "0x00001111", "0x00002202", "0x00000033"]
    cells = ["0xaaaa0000", "0xaaaa1111", "0xaaaa2202", "0xaaaa0033"] + [f"0xaaaa000{i}" for i in range(4, 8)]
    lines = [f"read {word}\n" for word in reads] + [f"cell {i} {word}\n" for i, word in enumerate(cells)]
    said("play", run(*words, "p.capture"), 0, "".join(lines), "")
    said("play into a file", run(*words, "p.capture", "-o", "lines.txt"), 0, "", "")
    hold("play into a file", read("lines.txt").decode(), "".join(lines))
    event = "event 1, WRITE bank 0 column 1: a kept beat lies outside the window, or there are too few words to write or masks"
    window = "the window has over 16,384 words, or leaves the part"
    for more, place, why in ((["--first", "2"], 1, event), (["--first", "0xFFFFFFFF"], 0, window), (["--first", "33554428"], 0, window)):
        said("play is refused", run(*words, *more, "p.capture"), 2, "", f"morgazell: refused 15 place {place}: {why}; nothing was written\n")
    said("too few words", run("play", "--zeros", "8", "p.capture"), 2, "", f"morgazell: refused 15 place 1: {event}; nothing was written\n")
    said("too many words", run("play", "--zeros", "16385", "p.capture"), 2, "", f"morgazell: refused 15 place 0: {window}; nothing was written\n")
    said("a word that is none", run(*words[:-1], "window.txt", "--window", "p.txt", "p.capture"), 3, "")
    said("a broken capture", run("play", "--zeros", "8", sample("tWTR")), 1, "")
    said("an archive that cannot play", run("play", "--zeros", "8", "p.capture", MORGAZELL_ABLE="1"), 70, "",
         "morgazell: this archive cannot play captures; nothing was written\n")


# ---- the month, to the letter of request K11's issue

MONTH = """capture 0 events 4 judged 4 clean read 6 written 4 bus 10 over 40
capture 1 events 2 judged 1 broken rule 8 event 1 cycle 2 read 0 written 0 bus 0 over 0
capture 2 events 0 judged 0 refused 3 place 0 read 0 written 0 bus 0 over 0
capture 3 events 0 judged 0 clean read 0 written 0 bus 0 over 0
all captures 4 clean 2 broken 1 refused 1 events 6 judged 5 read 6 written 4 bus 10 over 40
"""


def months():
    put(".", "0.capture", capture([(0, ACTIVE), (3, READ | 5), (4, READ | 8), (20, WRITE)]))
    put(".", "1.capture", capture([(0, ACTIVE), (2, READ)]))
    put(".", "2.capture", capture([], [3] + USUAL[1:]))
    put(".", "3.capture", capture([]))
    said("month", run("month", *(f"{i}.capture" for i in range(4))), 0, MONTH, "")
    put(".", "all.captures", b"".join(read(f"{i}.capture") for i in range(1, 4)))
    said("month of captures one behind another", run("month", "0.capture", "all.captures"), 0, MONTH, "")
    said("month of standard input", run("month", "-", given=read("0.capture") + read("all.captures")), 0, MONTH, "")
    said("standard input and more", run("month", "-", "all.captures", given=b""), 64, "")
    for name in ("missing", "all.captures"):
        ended = run("month", "0.capture", "missing", name)
        said("a file that is not there", ended, 3, "", "morgazell: missing cannot be read: No such file or directory; nothing was counted\n")
    said("the last one is not there", run("month", "0.capture", "missing"), 3, err="morgazell: missing cannot be read: No such file or directory\n")
    put(".", "cut.capture", read("0.capture")[:-1])
    said("one is cut short", run("month", "cut.capture", "1.capture"), 2, "",
         "morgazell: cut.capture: its captures do not end where the file ends, so those behind it would be misread; morgazell judge says "
         "more; nothing was counted\n")
    last = "capture 0 events 0 judged 0 refused 1 place 0 read 0 written 0 bus 0 over 0\nstream ends at capture 0\n"
    said("the last one is cut short", run("month", "cut.capture"), 0,
         last + "all captures 1 clean 0 broken 0 refused 1 events 0 judged 0 read 0 written 0 bus 0 over 0\n", "")
    said("no program", run("month", "0.capture", MORGAZELL_MONTH=""), 70, "")
    said("a program that cannot be started", run("month", "0.capture", MORGAZELL_MONTH="/nowhere/month"), 70, "")
    said("a program that says nothing", run("month", "0.capture", MORGAZELL_MONTH="/bin/true"), 70, "",
         "morgazell: the program month ended without its totals\n")
    said("one behind the most", run("month", "-", given=read("3.capture") * 10_001), 2)


# ---- lists

def lists(second):
    for name in ("clean-power-down", "clean-interrupted-writes", "schedule-open-rows"):
        data = read(sample(name))
        hold(f"cells of {name}", run("cells", sample(name)).stdout.decode(), "".join(f"{cell}\n" for cell in words_of(second(CELLS, data)[1])))
        hold(f"{name}, blanked", run("blank", sample(name)).stdout, second(BLANK, data)[1])
    hold("tWTR, blanked, is the sample", run("blank", sample("tWTR")).stdout, read(sample("tWTR-blanked")))
    said("cells of a broken one", run("cells", sample("tWTR")), 1, "",
         f"morgazell: {sample('tWTR')}: breaks rule 11 at event 228: tWTR is not over; nothing was written\n")
    said("cells of a refused one", run("cells", sample("cut-short")), 2, "")
    said("blank of a refused one", run("blank", sample("cut-short")), 2, "")


def rows(second):
    data = read(sample("schedule-open-rows"))
    events = events_in(data)
    told = words_of(second(OPENINGS, data, b"", 0, 0)[1])
    banks = [bank_ for bank_ in range(4) for _ in range(told[2 * bank_ + 1])]
    lines = []
    for i, bank_ in enumerate(banks):
        row, first, last = told[8 + 3 * i:11 + 3 * i]
        lines.append(f"bank {bank_} row {row}: open from event {first}, cycle {events[first][0]}, until after event {last}, cycle {events[last][0]}\n")
    said("open-rows", run("open-rows", sample("schedule-open-rows")), 0, "".join(lines), "")
    for bank_, event in ((0, 0), (1, 100), (3, 915)):
        (_, is_open, row), _ = second(OPENINGS, data, b"", bank_, event)
        said("one of them", run("open-rows", "--bank", str(bank_), "--event", str(event), sample("schedule-open-rows")), 0,
             f"bank {bank_} after event {event}: " + (f"row {row}\n" if is_open else "idle\n"), "")
    said("no such bank", run("open-rows", "--bank", "4", "--event", "0", sample("schedule-open-rows")), 2, "")
    said("no such event", run("open-rows", "--bank", "0", "--event", "916", sample("schedule-open-rows")), 2, "")
    said("a bank alone", run("open-rows", "--bank", "0", sample("schedule-open-rows")), 64, "")
    said("of a broken one", run("open-rows", sample("tWTR")), 1, "")
    ended = run("open-rows", "--judged", sample("tWTR"))
    said("of the judged events", ended, 0, err="")
    holds("up to the last of them", b"until after event 227" in ended.stdout and b"event 228" not in ended.stdout)
    said("of none", run("open-rows", given=capture([])), 0, "", "")


# ---- margins

LIMITS = {**{place: 10_000 for place in range(4, 16)}, 13: 1}
LINE = re.compile(r"(\S+) (\d+): clean (up to|down to) (\d+), (no room|room for \d+)(: .*)?$")
NAMES = ["tRCD", "tRP", "tRAS", "tRC", "tRRD", "tWR", "tWTR", "tRFC", "tMRD", "tREFI", "tXP", "tXSR"]


def is_clean(second, data, place, value):
    settings = settings_in(data)
    settings[place] = value
    return second(JUDGE, with_settings(data, settings))[0][:2] == (0, 0)


def margins(second):
    found = [data for data in generated(9, 200) if 200 < len(data) < 900 and second(JUDGE, data)[0][:2] == (0, 0)][:6]
    for i, data in enumerate(found):
        name = put(".", f"m{i}.capture", data)
        ended = run("margins", name)
        said("margins", ended, 0, err="")
        settings, lines = settings_in(data), ended.stdout.decode().split("\n")
        hold("a line a time", len(lines), len(settings) - 4 + 1)
        for place, line in zip(range(4, 16), lines[:-1]):
            margin(second, data, settings, place, line.removeprefix(name + ": "))
    parts(second)


def margin(second, data, settings, place, line):
    name, value, way, strictest, room, limit = LINE.match(line).groups()
    value, strictest = int(value), int(strictest)
    hold("the setting", (name, value, way), (NAMES[place - 4], settings[place], "down to" if place == 13 else "up to"))
    hold("the room", room, f"room for {abs(strictest - value)}" if strictest != value else "no room")
    holds(f"{line}: clean there", is_clean(second, data, place, strictest))
    end = LIMITS[place]
    if place == 7 and settings[5] + settings[6] <= end:
        end = settings[5] + settings[6]
    hold(f"{line}: said to be the limit", limit is not None, strictest == end)
    if strictest != end:
        holds(f"{line}: not clean behind it", not is_clean(second, data, place, strictest + (-1 if place == 13 else 1)))
    steps = {value + (strictest - value) * i // 5 for i in range(6)}
    holds(f"{line}: clean on the way", all(is_clean(second, data, place, step) for step in steps))


def parts(second):
    """Which parts it would pass: those of the same shape and latency, by their own times."""
    name = sample("clean-MT46H64M16LF")
    data = read(name)
    lines = [line.removeprefix(name + ": ") for line in run("margins", "--parts", name).stdout.decode().split("\n")[10:-1]]
    hold("parts", [line.split(": ")[0] for line in lines], [f"MT46H64M16LF {grade} CL3" for grade in ("-5", "-54", "-6", "-75")])
    answer = second(JUDGE, with_settings(data, settings_in(data)[:4] + SHEET[4:14]))[0]
    said_of = "clean" if answer[1] == 0 else f"breaks rule {answer[1]} at event {answer[2]}"
    hold("by the sheet", lines[0], f"{PART}: {said_of}")
    said("margins of a broken one", run("margins", sample("tWTR")), 1, "")
    said("margins of a refused one", run("margins", sample("cut-short")), 2, "")
