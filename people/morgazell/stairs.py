"""Rule 14 as a staircase: the refreshes owed against time, one more at each tREFI, one less at each AUTO REFRESH."""
from .facts import Differ
from .reasons import sentence
from .svg import LEFT, RIGHT, Sheet, spread, wrap
from .words import TITLES, short

TOP, BOTTOM = 44, 204
SHOWN = 13


def stairs(facts):
    why, t, step = facts.why, facts.event.cycle, facts.capture.setting("tREFI")
    changes = owed_over_time(facts, step)
    begin = max(why.since, why.allowed - SHOWN * step)
    sheet = Sheet()
    place = lambda cycle: LEFT + 10 + (cycle - begin) / (t - begin) * (RIGHT - LEFT - 60)
    height = lambda owed: BOTTOM - owed * (BOTTOM - TOP) / 10
    sheet.text(4, 16, f"Rule 14 broken at event {facts.judged}, cycle {t}: {TITLES[14]}", "title")
    draw_scale(sheet, height)
    draw_steps(sheet, changes, begin, t, place, height)
    draw_late(sheet, facts, place, height)
    draw_cycles(sheet, facts, changes, begin, place)
    line, said = BOTTOM + 68, sentence(facts)
    for row in wrap(said, 112):
        sheet.text(4, line, row, "bold")
        line += 14
    sheet.text(4, line + 6, f"The line is the number of refreshes owed: one more at every tREFI ({step:,} cycles), one less at "
                            "every AUTO REFRESH that is owed (arrows).", "small grey")
    return sheet.whole(line + 14, said)


def owed_over_time(facts, step):
    """(cycle, owed from then on, whether a refresh was paid), held to the cycle that the library names."""
    origin, late, t = facts.why.since, facts.why.allowed, facts.event.cycle
    rises = [(cycle, 0) for cycle in range(origin + step, t + 1, step)]
    paid = [(event.cycle, 1) for event in facts.capture.events[:facts.judged]
            if event.command == "AUTO REFRESH" and not event.low and event.cycle >= origin]
    owed, changes = 0, []
    for cycle, pays in sorted(rises + paid):
        owed = max(0, owed - 1) if pays else owed + 1
        changes.append((cycle, owed, bool(pays)))
    ninth = next((cycle for cycle, owed, _ in changes if owed == 9), None)
    if ninth != late:
        raise Differ("the ninth refresh is not owed when the library says")
    return changes


def draw_scale(sheet, height):
    for owed in range(11):
        sheet.line(LEFT, height(owed), RIGHT, height(owed), "rule")
        if owed < 10:
            sheet.text(LEFT - 6, height(owed) + 3, str(owed), "end small")
    sheet.line(LEFT, height(8), RIGHT, height(8), "okline")
    sheet.clear_text(LEFT + 4, height(8) - 4, "at most eight may be owed", "bold")
    sheet.text(4, BOTTOM + 11, "refreshes", "lane small")


def draw_steps(sheet, changes, begin, t, place, height):
    level = next((owed for cycle, owed, _ in reversed(changes) if cycle <= begin), 0)
    steps = [f"M{place(begin):.1f} {height(level):.1f}"]
    for cycle, owed, paid in changes:
        if cycle > begin:
            steps.append(f"H{place(cycle):.1f} V{height(owed):.1f}")
            if paid:
                sheet.path(f"M{place(cycle):.1f} {BOTTOM} l-3 7 h6 z", "mark")
    sheet.path(" ".join(steps) + f" H{place(t):.1f}", "thick")


def draw_late(sheet, facts, place, height):
    why, x = facts.why, place(facts.event.cycle)
    sheet.rect(x, TOP, RIGHT - x, BOTTOM - TOP, "after")
    sheet.text(RIGHT, BOTTOM + 11, "not judged", "small grey end")
    sheet.line(x, TOP - 6, x, BOTTOM + 24, "badline")
    sheet.circle(place(why.allowed), height(9), 4, "badmark")
    sheet.clear_text(place(why.allowed) - 8, height(9) + 4, f"the ninth is owed from {why.allowed:,}", "bad end")
    if x - place(why.allowed) > 3:
        sheet.line(place(why.allowed), height(9), place(why.allowed), BOTTOM + 24, "okline")
    word = short(facts.event)
    sheet.rect(x, TOP - 8, 6.8 * len(word) + 22, 14.5, "badbox")
    sheet.text(x + 4, TOP + 3.5, word + " ✗", "bad")


def draw_cycles(sheet, facts, changes, begin, place):
    t, why = facts.event.cycle, facts.why
    weights = {cycle: 1 for cycle, _, _ in changes if cycle > begin} | {begin: 3}
    if why.event is not None and facts.capture.events[why.event].cycle >= begin:
        weights[facts.capture.events[why.event].cycle] = 6
    weights |= {why.allowed: 9, t: 11}
    for x, text, row in spread([(place(cycle), f"{cycle:,}", weight) for cycle, weight in weights.items()], 5.6):
        sheet.line(x, BOTTOM + 24, x, BOTTOM + 28)
        sheet.text(x, BOTTOM + 38 + 10 * row, text, "small mid bad" if text == f"{t:,}" else "small mid")
    sheet.text(4, BOTTOM + 38, "cycle", "small")
