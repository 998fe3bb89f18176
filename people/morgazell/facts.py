"""What the library says of one accepted capture: verdict, explanation, open rows and the pairs that bursts keep. What is drawn
from it is held to it, and nothing is drawn where the two differ."""
from .archive import EXPLAINS
from .capture import Capture

NONE = 0xFFFFFFFF
NEVER, EARLY, LATE = 0, 1, 2


class Differ(Exception):
    """What would be drawn is not what the library says, or the library cannot say it."""


class Why:
    """The eight numbers of an explanation; None for a value that does not exist."""

    def __init__(self, numbers):
        told = [None if number == NONE else number for number in numbers]
        self.cycle, self.kind, self.allowed, self.clean, self.setting, self.since, self.event, self.bank = told


class Burst:
    """A READ or WRITE with the pairs that it keeps; h and CL are those of the mode word at its cycle."""

    def __init__(self, event, mode, kept):
        self.event, self.k, self.bank, self.auto = event.index, event.cycle, event.bank, event.a10
        self.writes = event.command == "WRITE"
        self.pairs, self.kept = (1 << (mode & 7)) // 2, kept
        # the cycle of its first pair on the bus
        self.first = self.k + (1 if self.writes else mode >> 4 & 7)

    @property
    def end(self):
        return self.first + self.kept


class Facts:
    """Without explanations there are no bursts and no reason, and `explained` is false."""

    def __init__(self, archive, data):
        self.capture = Capture(data)
        answer = archive.judge(data)
        self.rule, self.judged = answer.rule, answer.value
        self.event = self.capture.events[self.judged] if self.rule else None
        before = self.capture.first(self.judged)
        self.openings = archive.openings(before) if self.judged else []
        self.bursts, self.why = [], None
        self.explained = archive.is_able(EXPLAINS)
        if self.explained:
            self.explain(archive, data, before)

    def explain(self, archive, data, before):
        judged = self.capture.events[:self.judged]
        self.bursts = bursts(judged, self.capture.setting("mode word"), archive.kept(data))
        if 2 * sum(burst.kept for burst in self.bursts) != len(archive.cells(before)[1]):
            raise Differ("the pairs of the bursts are not the cells of the burst list")
        if self.rule:
            self.why = Why(archive.why(data))
            self.hold()

    def want_explained(self):
        if not self.explained:
            raise Differ("this archive cannot explain faults")

    def hold(self):
        """The explanation beside what is drawn of it."""
        why, burst = self.why, self.burst_of(self.why.event)
        if why.cycle != self.event.cycle:
            raise Differ("the explanation is of another cycle")
        if (why.kind == LATE) != (self.rule == 14):
            raise Differ("the explanation is of another rule")
        if why.kind == EARLY and why.allowed <= why.cycle:
            raise Differ("the event is not early")
        if self.rule in (10, 11) and (burst is None or why.since != self.waits_from(burst)):
            raise Differ("the end of write data is not where it is counted from")
        if self.rule == 12 and (burst is None or why.allowed != burst.end):
            raise Differ("the end of read data is not where the bus is free")
        if why.kind == EARLY and why.setting is not None:
            self.hold_sum(why)

    def hold_sum(self, why):
        """A time that is counted from a cycle ends where the library says."""
        if why.since + self.capture.settings[why.setting] != why.allowed:
            raise Differ("the wait does not end where the library says")

    def burst_of(self, event):
        return next((burst for burst in self.bursts if burst.event == event), None)

    def waits_from(self, burst):
        newer = self.capture.edition == 1 and not burst.auto
        return burst.k + 2 if newer else burst.end

    def open_at_fault(self, bank):
        """The opening of a bank that still stands when the rule is broken."""
        last = [opening for opening in self.openings if opening.bank == bank][-1:]
        return next((opening for opening in last if opening.last == self.judged - 1), None)

    @property
    def asleep(self):
        return self.judged > 0 and self.capture.events[self.judged - 1].low


def bursts(events, mode, kept):
    told, made = iter(kept), []
    for event in events:
        if event.bursts:
            pairs = next(told, None)
            if pairs is None:
                raise Differ("there are more bursts than the library counts")
            made.append(Burst(event, mode, pairs))
        elif event.command == "MODE REGISTER SET" and event.bank == 0:
            mode = event.address
    if next(told, None) is not None:
        raise Differ("there are fewer bursts than the library counts")
    return made
