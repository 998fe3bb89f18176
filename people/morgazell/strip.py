"""How much of a capture was judged: its events over time, the judged ones filled."""
from .svg import LEFT, RIGHT, Sheet

BINS, FLOOR, HEIGHT = 160, 38, 34


def strip(facts):
    """Nothing for a capture of no events."""
    events = facts.capture.events
    if not events:
        return ""
    sheet, last = Sheet(), max(events[-1].cycle, 1)
    place = lambda cycle: LEFT + cycle / (last + 1) * (RIGHT - LEFT)
    draw_bins(sheet, facts, last)
    for event in events[:facts.judged]:
        if event.command == "AUTO REFRESH" and not event.low:
            sheet.line(place(event.cycle), FLOOR + 1, place(event.cycle), FLOOR + 6, "thin")
    sheet.text(4, 26, "events", "lane")
    sheet.text(4, 46, "refreshes", "small")
    if facts.rule:
        sheet.line(place(facts.event.cycle), 1, place(facts.event.cycle), 46, "badline")
        x = place(facts.event.cycle)
        aside, kind = (4, "bad") if x < LEFT + 60 else (-4, "bad end")
        sheet.clear_text(x + aside, 10, f"rule {facts.rule}", kind)
    sheet.text(LEFT, 56, "cycle 0", "small")
    sheet.text(RIGHT, 56, f"{last:,}", "small end")
    words = told(facts)
    sheet.text((LEFT + RIGHT) / 2, 56, words, "small mid")
    return sheet.whole(60, words)


def draw_bins(sheet, facts, last):
    counts = [[0, 0] for _ in range(BINS)]
    for event in facts.capture.events:
        counts[event.cycle * BINS // (last + 1)][event.index >= facts.judged] += 1
    most, width = max(map(sum, counts)), (RIGHT - LEFT) / BINS
    for i, (judged, rest) in enumerate(counts):
        x, done, open_ = LEFT + i * width, HEIGHT * judged / most, HEIGHT * rest / most
        if judged:
            sheet.rect(x, FLOOR - done, width, done, "done")
        if rest:
            sheet.rect(x + .4, FLOOR - done - open_, width - .8, open_, "open")
    sheet.line(LEFT, FLOOR, RIGHT, FLOOR)


def told(facts):
    filled = f"filled: {facts.judged:,} events judged"
    if not facts.rule:
        return filled + ", all of them"
    return filled + f"; empty: {facts.capture.n - facts.judged:,} not judged, the broken one among them"
