"""The picture of a fault: what happened around it, the wait as a dimension line, and what was not judged."""
from .capture import NAMES, ROW_BITS
from .facts import EARLY, LATE
from .reasons import sentence
from .stairs import stairs
from .svg import LEFT, RIGHT, WIDTH, Sheet, spread, wrap
from .words import TITLES, cycles, short

LANE, TOP = 34, 44
BREAK, AFTER, WIDEST, NARROWEST = 30, 62, 26, 10


def fault(facts):
    """The picture of a broken rule as SVG."""
    facts.want_explained()
    if facts.why.kind == LATE:
        return stairs(facts)
    return Fault(facts).draw()


def title(facts):
    return f"Rule {facts.rule} broken at event {facts.judged}, cycle {facts.event.cycle}: {TITLES[facts.rule]}"


def lane_of(event):
    if event.quiet or event.command in ("AUTO REFRESH", "MODE REGISTER SET", "BURST TERMINATE"):
        return "all banks"
    return "all banks" if event.command == "PRECHARGE" and event.a10 else f"bank {event.bank}"


class Axis:
    """Cycles to places: true to scale from the cause to the fault, cut where nothing happens for long."""

    def __init__(self, points, near):
        self.points = sorted(set(points))
        steps = [b - a for a, b in zip(self.points, self.points[1:])]
        cut = [step > (16 if at >= near else 5) for at, step in zip(self.points, steps)]
        scaled = sum(step for step, out in zip(steps, cut) if not out)
        room = RIGHT - AFTER - LEFT - 10 - BREAK * sum(cut)
        self.unit = min(WIDEST, room / max(scaled, 1))
        self.places, self.gaps = [LEFT + 10], []
        for step, out in zip(steps, cut):
            x, width = self.places[-1], BREAK if out else step * self.unit
            if out:
                self.gaps.append((x + width / 2, step))
            self.places.append(x + width)

    def __call__(self, cycle):
        if cycle <= self.points[0]:
            return self.places[0] - min(10, (self.points[0] - cycle) * self.unit)
        for a, b, x, y in zip(self.points, self.points[1:], self.places, self.places[1:]):
            if cycle <= b:
                return x + (y - x) * (cycle - a) / (b - a)
        return self.places[-1] + (cycle - self.points[-1]) * self.unit


class Fault:
    def __init__(self, facts):
        self.facts, self.why, self.sheet = facts, facts.why, Sheet()
        self.t = facts.event.cycle
        self.waits = self.why.kind == EARLY
        self.last = max(self.t, self.why.allowed or 0) + 1
        self.events, self.x = self.choose()
        lanes = ["CKE"] if facts.capture.sleeps else []
        lanes += ["all banks", "bank 0", "bank 1", "bank 2", "bank 3", "data"]
        self.y = {lane: TOP + LANE * i for i, lane in enumerate(lanes)}
        self.bottom = TOP + LANE * len(lanes)
        self.foot = self.bottom + (54 if self.waits else 16)

    # ---- what is shown

    def choose(self):
        """The events before the broken one that there is room for, eight at most, and always the one that is waited for."""
        for most in range(8, 0, -1):
            events = self.before(most)
            axis = self.axis(events)
            if axis.unit >= (WIDEST * .75 if most > 4 else NARROWEST):
                break
        behind = self.facts.capture.events[self.facts.judged + 1:self.facts.judged + 4]
        return events + [event for event in behind if event.cycle <= self.last and not event.quiet], axis

    def before(self, most):
        """NOP and DESELECT count only where CKE changes."""
        all_, i = self.facts.capture.events, self.facts.judged
        shown = [event for event in all_[:i] if not event.quiet or event.low != (event.index > 0 and all_[event.index - 1].low)]
        events = shown[-most:] + [self.facts.event]
        if self.why.event is not None and all_[self.why.event] not in events:
            events.insert(0, all_[self.why.event])
        return events

    def axis(self, events):
        points = [event.cycle for event in events] + [self.last]
        near = self.t - 8
        if self.waits:
            points += [self.why.since, self.why.allowed]
            near = min(self.why.since, self.facts.capture.events[self.why.event].cycle)
        shown = {event.index for event in events}
        for burst in self.facts.bursts:
            if burst.event in shown:
                points += [min(burst.first, self.last), min(burst.first + burst.pairs, self.last)]
        return Axis(points, near)

    # ---- lane by lane

    def draw(self):
        sheet = self.sheet
        sheet.text(4, 16, title(self.facts), "title")
        sheet.line(LEFT, TOP, RIGHT, TOP, "rule")
        for lane, y in self.y.items():
            sheet.text(4, y + 28, lane, "lane")
            sheet.line(LEFT, y + LANE, RIGHT, y + LANE, "rule")
        self.draw_rows()
        self.draw_data()
        sheet.rect(self.x(self.t), TOP, RIGHT - self.x(self.t), self.bottom - TOP, "after")
        sheet.text(RIGHT, TOP - 6, "not judged", "small grey end")
        if "CKE" in self.y:
            self.draw_cke()
        self.draw_gaps()
        self.draw_commands()
        if self.waits:
            self.draw_wait()
        self.draw_cycles()
        return self.finish()

    def draw_rows(self):
        events = self.facts.capture.events
        for opening in self.facts.openings:
            began = events[opening.first].cycle
            closes = opening.last + 1
            stop = self.t if closes >= self.facts.judged else events[closes].cycle
            if stop > self.x.points[0]:
                self.draw_row(opening, began, stop)

    def draw_row(self, opening, began, stop):
        first = self.x.points[0]
        left, right = LEFT if began < first else self.x(began), self.x(stop)
        key = self.facts.rule == 3 and opening is self.facts.open_at_fault(opening.bank) and self.why.bank == opening.bank
        y = self.y[f"bank {opening.bank}"] + 19
        self.sheet.rect(left, y, right - left, 12, "key" if key else "row")
        label = f"row {opening.row}"
        for words in ([f"{label}, open since {began}"] if began < first else []) + [label]:
            if len(words) * 5 + 6 < right - left:
                kind, ground = ("small bold", "#cfcfcf") if key else ("small", "#e6e6e6")
                return self.sheet.clear_text(left + 4, y + 9, words, kind, ground)
        return None

    def draw_data(self):
        first, last, y = self.x.points[0], self.x.points[-1], self.y["data"]
        labels = []
        for burst in self.facts.bursts:
            if burst.first + burst.pairs <= first or burst.first >= last:
                continue
            for pair in range(burst.pairs):
                self.draw_pair(burst, pair, y)
            cause = burst.event == self.why.event
            labels.append((not cause, self.x(max(burst.first, first)), f"{'write' if burst.writes else 'read'} b{burst.bank}"))
        self.label_data(sorted(labels), y)

    def label_data(self, labels, y):
        """The burst that is waited for has its name; the others, where there is room."""
        taken = []
        for other, x, name in labels:
            if all(abs(x - place) > 46 for place in taken):
                taken.append(x)
                self.sheet.clear_text(x, y + 12, name, "small" if other else "small bold")

    def draw_pair(self, burst, pair, y):
        at = burst.first + pair
        left, right = self.x(at), self.x(at + 1)
        if at < self.x.points[0] or left > RIGHT - AFTER:
            return
        kept = pair < burst.kept
        self.sheet.rect(left, y + 15, right - left, 14, ("write" if burst.writes else "read") if kept else "cut")
        if kept:
            self.sheet.line((left + right) / 2, y + 15, (left + right) / 2, y + 29, "split" if burst.writes else "greyline")

    def draw_cke(self):
        """CKE holds between events."""
        first, y, low = self.x.points[0], self.y["CKE"], False
        steps = []
        for event in self.facts.capture.events[:self.facts.judged + 1]:
            if event.low != low and event.cycle >= first:
                steps.append(f"H{self.x(event.cycle):.1f} V{y + (28 if event.low else 10)}")
            if event.cycle < first:
                begins = event.low
            low = event.low
        begins = any(event.cycle < first for event in self.facts.capture.events) and begins
        self.sheet.path(f"M{LEFT} {y + (28 if begins else 10)} {' '.join(steps)} H{self.x(self.t) + 12:.1f}", "thick")

    def draw_gaps(self):
        for middle, step in self.x.gaps:
            height = self.bottom - TOP + 6
            self.sheet.rect(middle - 4, TOP - 3, 8, height, "white")
            teeth = " ".join(f"l{3 if i % 2 else -3} 6" for i in range(int(height / 6)))
            for side in (-2.5, 5.5):
                self.sheet.path(f"M{middle + side:.1f} {TOP - 3} {teeth}", "greyline")
            self.sheet.text(middle, TOP - 6, f"{step:,}", "small grey mid")
        if self.x.gaps:
            self.sheet.text(4, TOP - 6, "cycles cut out", "small grey")

    def draw_commands(self):
        if self.waits:
            self.sheet.line(self.x(self.why.allowed), TOP - 2, self.x(self.why.allowed), self.foot - 4, "okline")
        taken = {}
        for event in self.events:
            if event is not self.facts.event:
                self.draw_command(event, taken.setdefault(lane_of(event), []))
        self.draw_broken()

    def draw_command(self, event, taken):
        x, y, behind = self.x(event.cycle), self.y[lane_of(event)], event.cycle > self.t
        if behind and lane_of(event) == lane_of(self.facts.event):
            y += 14
        self.sheet.line(x, y + 4, x, y + 14, "cut" if behind else "")
        self.sheet.path(f"M{x - 3:.1f} {y + 13} h6 l-3 6 z", "later" if behind else "mark")
        crowded = any(0 <= x - other < 24 for other in taken)
        if not (behind and crowded):
            cause = event.index == self.why.event
            kind = "small grey" if behind else "bold" if cause else "small"
            near = 0 < self.x(self.t) - x < (7.5 if cause else 6) * len(short(event)) + 3
            if near and lane_of(event) == lane_of(self.facts.event):
                self.sheet.clear_text(x - 4, y + 12, short(event), kind + " end")
            else:
                self.sheet.clear_text(x + 3, y + 12, short(event), kind)
        taken.append(x)

    def draw_broken(self):
        event, x = self.facts.event, self.x(self.t)
        falls = event.low and not self.facts.asleep
        self.sheet.line(x, TOP - 2, x, self.foot - 4, "badline")
        word = "CKE falls" if falls else short(event)
        y = self.y["CKE" if falls else lane_of(event)]
        self.sheet.rect(x, y + 1.5, 6.8 * len(word) + 22, 14.5, "badbox")
        self.sheet.text(x + 4, y + 13, word + " ✗", "bad")
        if falls:
            self.sheet.clear_text(x + 4, self.y[lane_of(event)] + 13, f"with {short(event)}", "small")

    # ---- the wait

    def draw_wait(self):
        """Two dimension lines: what the rule asks, and what it was."""
        why, sheet = self.why, self.sheet
        since = self.x(why.since)
        sheet.line(since, self.bottom - 4, since, self.foot - 4, "cut")
        name = "data" if why.setting is None else f"{NAMES[why.setting]} {self.facts.capture.settings[why.setting]}"
        gone = why.allowed - self.t
        asked = f"{name}: allowed from {why.allowed}"
        was = f"was {self.t - why.since}: " if self.t >= why.since else ""
        self.dimension(self.bottom + 19, since, self.x(why.allowed), "", asked, "bold")
        self.dimension(self.bottom + 37, since, self.x(self.t), "bad", f"{was}came at {self.t}, {cycles(gone)} early", "bad")

    def dimension(self, y, since, till, kind, words, letters):
        sheet, left, right = self.sheet, min(since, till), max(since, till)
        sheet.line(since, y, till, y, kind + "dim")
        if right - left > 12:
            sheet.arrow(left, y, -1, kind + "mark")
        if right > left:
            sheet.arrow(right, y, 1, kind + "mark")
        width, behind = 6.3 * len(words), max(right, self.x(self.why.allowed)) + 7
        if right - left > width + 10:
            sheet.clear_text((left + right) / 2, y - 4, words, letters + " mid")
        elif left - LEFT > width:
            sheet.clear_text(left - 6, y + 4, words, letters + " end")
        elif WIDTH - behind > width:
            sheet.clear_text(behind, y + 4, words, letters)
        else:
            sheet.clear_text(min(left, WIDTH - 4 - width), y - 4, words, letters)

    def draw_cycles(self):
        weights = {event.cycle: 2 for event in self.events}
        if self.why.event is not None:
            weights[self.facts.capture.events[self.why.event].cycle] = 6
        if self.waits:
            weights |= {self.why.since: 7, self.why.allowed: 8}
        weights[self.t] = 11
        for x, text, row in spread([(self.x(cycle), str(cycle), weight) for cycle, weight in weights.items()], 5.6):
            self.sheet.line(x, self.foot - 4, x, self.foot + 1)
            self.sheet.text(x, self.foot + 10 + 10 * row, text, "small mid bad" if text == str(self.t) else "small mid")
        self.sheet.text(4, self.foot + 10, "cycle", "small")

    def finish(self):
        said, line = sentence(self.facts), self.foot + 38
        for row in wrap(said, 108):
            self.sheet.text(4, line, row, "bold")
            line += 14
        if self.facts.rule in (1, 2):
            line = pins(self.sheet, self.facts, line + 6)
        legend(self.sheet, line + 2)
        return self.sheet.whole(line + 36, said)


def legend(sheet, y):
    x = 4
    for kind, words in (("row", "row open"), ("read", "read pair"), ("write", "write pair"), ("cut", "pair cut off")):
        sheet.rect(x, y, 16, 11, kind)
        sheet.text(x + 22, y + 9, words, "small")
        x += 36 + 5.1 * len(words)
    for kind, words in (("badline", "breaks the rule"), ("okline", "first cycle allowed")):
        sheet.line(x + 8, y, x + 8, y + 11, kind)
        sheet.text(x + 22, y + 9, words, "small")
        x += 36 + 5.1 * len(words)
    sheet.text(4, y + 23, "ACT active  RD read  WR write  (A: auto precharge)  PRE precharge  PREA all  REF refresh  "
                          "MRS mode set  BST burst terminate  DES deselect", "small grey")


def pins(sheet, facts, y):
    """A0-A13 of the ACTIVE or MODE REGISTER SET, with those boxed that are wrong; where the picture goes on."""
    address, bits, width = facts.event.address, facts.capture.settings[ROW_BITS], 26
    fields = [(13, bits, "not in the part"), (bits - 1, 0, "row")]
    if facts.rule == 2:
        fields = [(13, 7, "must be 0"), (6, 4, "CAS latency"), (3, 3, "order"), (2, 0, "burst length")]
    for high, low, label in fields:
        value = address >> low & (1 << high - low + 1) - 1
        fits = {"CAS latency": value in (2, 3), "burst length": value in (1, 2, 3, 4), "row": True, "order": True}
        good = fits.get(label, value == 0)
        for pin in range(high, low - 1, -1):
            x = LEFT + (13 - pin) * width
            sheet.rect(x, y + 12, width, 16, "" if good else "key")
            sheet.text(x + width / 2, y + 24, str(address >> pin & 1), "mid" if good else "mid bad")
            sheet.text(x + width / 2, y + 9, f"A{pin}", "small grey mid")
        words = label if label in ("must be 0", "not in the part", "order") else f"{label}: {value}"
        middle = LEFT + (13 - high) * width + width * (high - low + 1) / 2
        sheet.text(middle, y + 40, words, "small mid" if good else "small mid bad")
    return y + 52
