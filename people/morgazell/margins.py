"""How much room a clean capture leaves: the strictest value of each time by which it would still be clean.

Each is asked of the judge. A longer wait lets no event through that a shorter one keeps out, and a shorter tREFI owes no
refresh later, so the values that are clean stand on one side of a limit, which halving finds."""
from .capture import LIMITS, NAMES, T_RAS, T_RC, T_REFI, T_RP, with_setting, with_times
from .parts import all_parts

TIMES = range(4, 16)


class Margin:
    """Of one time: the value in the capture, the strictest that is clean, and whether something else than the rules sets the
    limit."""

    def __init__(self, place, value, strictest, limit):
        self.place, self.value, self.strictest, self.limit = place, value, strictest, limit

    def line(self):
        name, apart = NAMES[self.place], abs(self.strictest - self.value)
        way = "down to" if self.place == T_REFI else "up to"
        room = "no room" if apart == 0 else f"room for {apart}"
        return f"{name} {self.value}: clean {way} {self.strictest}, {room}{self.limit}"


def margins(archive, data, capture):
    return [margin(archive, data, capture.settings, place) for place in TIMES if place < len(capture.settings)]


def margin(archive, data, settings, place):
    clean = lambda value: archive.judge(with_setting(data, place, value)).clean
    value = settings[place]
    if place == T_REFI:
        least = LIMITS[place][0]
        strictest = halved(clean, value, least)
        return Margin(place, value, strictest, outermost(strictest, least))
    most = LIMITS[place][1]
    if place == T_RC:
        most = min(most, settings[T_RAS] + settings[T_RP])
    strictest = halved(clean, value, most)
    if place == T_RC and strictest == most:
        return Margin(place, value, strictest, ": tRAS + tRP is the limit, whatever the board does")
    return Margin(place, value, strictest, outermost(strictest, most))


def outermost(strictest, end):
    if strictest != end:
        return ""
    return ": the least that a setting may be" if end == 1 else ": the most that a setting may be"


def halved(clean, good, end):
    """The last value from a clean one towards the end that is clean: it is clean, and the next one is not."""
    if clean(end):
        return end
    bad = end
    while abs(bad - good) > 1:
        middle = (good + bad) // 2
        if clean(middle):
            good = middle
        else:
            bad = middle
    return good


def parts(archive, data, capture):
    """Of each part with the capture's lanes, rows, columns and latency what the judge says by its times."""
    for part in all_parts():
        if part.fits(capture):
            answer = archive.judge(with_times(data, capture, part.settings))
            if answer.refusal:
                yield part, "its settings are refused: tRC is above tRAS + tRP"
            elif answer.rule:
                yield part, f"breaks rule {answer.rule} at event {answer.value}"
            else:
                yield part, "clean"
