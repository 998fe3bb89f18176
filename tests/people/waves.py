"""Waveforms: a reader of our own takes the dump apart, cycle by cycle, and holds it to the capture; of wires and of vectors."""
import os
import tempfile

from asking import ANSWERS, JUDGE, KEPT, OPENINGS, SAMPLES, VERSION, Second, bytes_of, generated, hold, holds, put, read, run, said, words_of
from captures import events_in, settings_in

from morgazell.archive import Archive
from morgazell.facts import Facts
from morgazell.vcd import dump

NAMES = {(0, 1, 1): "ACTIVE", (1, 0, 1): "READ", (1, 0, 0): "WRITE", (1, 1, 0): "BURST_TERMINATE", (0, 1, 0): "PRECHARGE",
         (0, 0, 1): "AUTO_REFRESH", (0, 0, 0): "MODE_REGISTER_SET", (1, 1, 1): "NOP"}


class Dump:
    """A value change dump: the widths of its wires, and what each becomes when."""

    def __init__(self, text):
        self.width, self.changes, signs = {}, {}, {}
        words, at, now = text.split(), 0, None
        while words[at] != "$enddefinitions":
            end = words.index("$end", at)
            if words[at] == "$var":
                _, kind, width, sign, name = words[at:at + 5]
                assert kind in ("wire", "string") and sign not in signs
                signs[sign], self.width[name] = name, 0 if kind == "string" else int(width)
            at = end + 1
        for word in (words := iter(words[at + 2:])):
            if word[0] == "#":
                assert now is None or int(word[1:]) > now
                now = int(word[1:])
                self.changes[now] = {}
            elif word in ("$dumpvars", "$end"):
                continue
            elif word[0] in "bs":
                self.changes[now][signs[next(words)]] = word[1:]
            else:
                self.changes[now][signs[word[1:]]] = word[0]
        self.end = now

    def cycles(self, others):
        """The values of all wires at each change, and at other cycles."""
        values = {}
        for cycle in sorted(set(self.changes) | set(others)):
            values = values | self.changes.get(cycle, {})
            yield cycle, values


def field(values, dumped, name, count):
    """A vector, or its wires put together."""
    if name in dumped.width:
        return int(values[name], 2)
    return sum(int(values[f"{name}{i}"]) << i for i in range(count))


def check_dump(second, name, data, text, vectors):
    dumped = Dump(text)
    if not vectors:
        hold(f"{name}: wires of one bit", set(dumped.width.values()), {1})
    events = dict(events_in(data))
    (_, rule, judged), _ = second(JUDGE, data)
    low, found = 0, {}
    fault = events_in(data)[judged][0] if rule else None
    known = truth(second, data, judged)
    for cycle, values in dumped.cycles(events):
        pins = events.get(cycle)
        if pins is None:
            found[cycle] = values["event"] == "0" and command(values) == (0, 1, 1, 1) and values["cke"] == str(1 - low)
        else:
            low = pins >> 20 & 1
            found[cycle] = (values["event"] == "1" and field(values, dumped, "a", 14) == pins & 0x3FFF
                            and field(values, dumped, "ba", 2) == pins >> 14 & 3 and values["cke"] == str(1 - low)
                            and command(values) == tuple(pins >> bit & 1 for bit in (16, 17, 18, 19)))
        found[cycle] &= cycle == dumped.end or check_state(values, cycle, fault, known, vectors)
        if vectors:
            found[cycle] &= values["command"] == worded(command(values))
    wrong = [cycle for cycle, right in found.items() if not right]
    hold(f"{name}: cycles that are not the capture's", wrong[:5], [])


def command(values):
    return tuple(int(values[wire]) for wire in ("cs_n", "ras_n", "cas_n", "we_n"))


def worded(pins):
    return "DESELECT" if pins[0] else NAMES[pins[1:]]


def truth(second, data, judged):
    """Of the judged events: for each bank (from, to, row) in cycles, and the cycles with data read and written."""
    settings, events = settings_in(data), events_in(data)
    rows = {bank: [] for bank in range(4)}
    if judged:
        start = 24 + 4 * len(settings)
        before = bytes_of(start + 8 * judged) + data[4:12] + bytes_of(judged) + data[16:start + 8 * judged]
        told = words_of(second(OPENINGS, before, b"", 0, 0)[1])
        place = 8
        for bank in range(4):
            for _ in range(told[2 * bank + 1]):
                row, first, last = told[place:place + 3]
                stop = events[last + 1][0] if last + 1 < judged else None
                rows[bank].append((events[first][0], stop, row))
                place += 3
    kept, mode, data_at = iter(words_of(second(KEPT, data)[1])), settings[3], {"rd_data": set(), "wr_data": set()}
    for cycle, pins in events[:judged]:
        code = pins >> 16 & 15
        if code in (0b1010, 0b0010):
            first = cycle + (mode >> 4 & 7 if code == 0b1010 else 1)
            data_at["rd_data" if code == 0b1010 else "wr_data"] |= set(range(first, first + next(kept)))
        elif code == 0 and pins >> 14 & 3 == 0:
            mode = pins & 0x3FFF
    return rows, data_at


def check_state(values, cycle, fault, known, vectors):
    """Rows, data and how far it was judged."""
    rows, data_at = known
    past = fault is not None and cycle > fault
    right = values["judged"] == ("0" if fault is not None and cycle >= fault else "1") and values["broken"] == ("1" if cycle == fault else "0")
    for bank in range(4):
        row = next((row for began, stop, row in rows[bank] if began <= cycle and (stop is None or cycle < stop)), None)
        shown = values[f"row{bank}"] if vectors else values[f"open{bank}"]
        if past:
            right &= set(shown) == {"x"}
        elif vectors:
            right &= set(shown) == {"z"} if row is None else int(shown, 2) == row
        else:
            right &= shown == ("0" if row is None else "1")
    for wire, cycles in data_at.items():
        right &= values[wire] == ("x" if past else "1" if cycle in cycles else "0")
    return right


def check():
    second, count = Second(), {}
    os.environ["MORGAZELL_VERSION"] = VERSION
    with Archive([ANSWERS]) as archive:
        inputs = [(f"capture {i}", data) for i, data in enumerate(generated(21, 150))]
        for name, data in inputs + [(os.path.basename(name), read(name)) for name in SAMPLES]:
            (refusal, rule, _), _ = second(JUDGE, data)
            if refusal or len(data) > 16_000:
                continue
            count[rule] = count.get(rule, 0) + 1
            for vectors in (False, True):
                check_dump(second, name, data, dump(name, VERSION, Facts(archive, data), vectors), vectors)
    holds("captures of most kinds", len(count) > 10)
    by_word()
    second.end()


def by_word():
    with tempfile.TemporaryDirectory() as folder:
        name = put(folder, "a $end\n.capture", read(SAMPLES[0]))
        ended = run("vcd", name)
        said("vcd", ended, 0, err="")
        holds("no name ends a comment", b"a ?end\\x0a.capture" in ended.stdout)
        Dump(ended.stdout.decode())
        hold("into a file", (run("vcd", name, "-o", "x.vcd", cwd=folder).returncode, read(os.path.join(folder, "x.vcd"))), (0, ended.stdout))
        Dump(run("vcd", "--gtkwave", name).stdout.decode())
        ended = run("vcd", name, MORGAZELL_ABLE="0")
        said("without kept pairs", ended, 0, err="morgazell: this archive cannot tell which pairs a burst keeps: the dump has no data wires\n")
        hold("no data wires", [wire for wire in Dump(ended.stdout.decode()).width if "data" in wire], [])
        said("a refused one", run("vcd", os.path.join(os.path.dirname(SAMPLES[0]), "cut-short.capture")), 2, "")
