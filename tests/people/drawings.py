"""Pages and pictures: of every sample and of generated captures, with the numbers that the second implementation explains."""
import html
import os
import re
import tempfile
import xml.etree.ElementTree as ET
from html.parser import HTMLParser

from asking import JUDGE, OPENINGS, ROOT, SAMPLES, VERSION, WHY, ANSWERS, Second, bytes_of, generated, hold, holds, put, read, run, said, words_of
from captures import event_in, settings_in

from morgazell.archive import Archive
from morgazell.facts import Facts
from morgazell.page import Sheet
from morgazell.picture import fault

NAMES = ["lane code", "row bits", "column bits", "mode word", "tRCD", "tRP", "tRAS", "tRC", "tRRD", "tWR", "tWTR", "tRFC", "tMRD",
         "tREFI", "tXP", "tXSR"]
NONE = 0xFFFFFFFF
SVG = "{http://www.w3.org/2000/svg}"
FEW = 8


def cycles(n):
    return f"{n} cycle" if n == 1 else f"{n:,} cycles"


class Drawn:
    """A picture taken apart: its letters, and the shapes of each class."""

    def __init__(self, svg):
        self.root = ET.fromstring(svg)
        self.texts = ["".join(one.itertext()) for one in self.root.iter(SVG + "text")]
        self.title = self.root.find(SVG + "title").text

    def shapes(self, tag, kind):
        return [one for one in self.root.iter(SVG + tag) if one.get("class") == kind]

    def x(self, kind):
        return [float(one.get("x1")) for one in self.shapes("line", kind)]


def check_picture(second, name, data, drawn):
    (_, rule, event), told = second(WHY, data)
    t, kind, allowed, clean, setting, since, cause, bank = words_of(told)
    hold(f"{name}: the rule, event and cycle", any(text.startswith(f"Rule {rule} broken at event {event}, cycle {t}: ") for text in drawn.texts), True)
    if kind == 1:
        early(name, data, drawn, t, allowed, clean, setting, since, cause)
    elif kind == 2:
        holds(f"{name}: the ninth", f"the ninth is owed from {allowed:,}" in drawn.texts)
        holds(f"{name}: the ninth, in words", f"the ninth since {allowed}," in drawn.title)
        holds(f"{name}: the last refresh", cause == NONE or f"was event {cause}, cycle {event_in(data, cause)[0]}" in drawn.title)
    else:
        never(second, name, data, drawn, rule, event, cause, bank)
    if kind != 2:
        rows(second, name, data, drawn, event, t)


def early(name, data, drawn, t, allowed, clean, setting, since, cause):
    what = "data" if setting == NONE else f"{NAMES[setting]} {settings_in(data)[setting]}"
    holds(f"{name}: what is asked", f"{what}: allowed from {allowed}" in drawn.texts)
    was = f"was {t - since}: " if t >= since else ""
    holds(f"{name}: what was", f"{was}came at {t}, {cycles(allowed - t)} early" in drawn.texts)
    holds(f"{name}: in words", f"from {allowed}" in drawn.title and f"at {t}, {cycles(allowed - t)} early" in drawn.title)
    holds(f"{name}: by every rule", clean in (NONE, allowed) or f"(by every rule from {clean})" in drawn.title)
    holds(f"{name}: the cause", f"event {cause}" in drawn.title)
    holds(f"{name}: the lines", drawn.x("badline")[0] < drawn.x("okline")[0])


def never(second, name, data, drawn, rule, event, cause, bank):
    holds(f"{name}: no cycle is said to be allowed", not any("allowed from" in text for text in drawn.texts))
    if cause != NONE:
        cycle = event_in(data, cause)[0]
        holds(f"{name}: the cause", f"cycle {cycle})" in drawn.title or f"since {cycle}" in drawn.title)
    if bank != NONE:
        holds(f"{name}: the bank", f"bank {bank}" in drawn.title)


def openings_of(second, data, event):
    """(bank, row, first event, last event) of each opening among the judged events."""
    if event == 0:
        return []
    start = 24 + 4 * len(settings_in(data))
    judged = bytes_of(start + 8 * event) + data[4:12] + bytes_of(event) + data[16:start + 8 * event]
    _, told = second(OPENINGS, judged, b"", 0, 0)
    told = words_of(told)
    banks = [bank for bank in range(4) for _ in range(told[2 * bank + 1])]
    return [(bank, *told[8 + 3 * i:11 + 3 * i]) for i, bank in enumerate(banks)]


def rows(second, name, data, drawn, event, t):
    """Every row that a bar names was open, in its lane, and a bar to the fault for each that still is."""
    known = openings_of(second, data, event)
    lanes = {text: float(one.get("y")) for one in drawn.root.iter(SVG + "text") for text in ["".join(one.itertext())]
             if text.startswith("bank ") and one.get("class") == "lane"}
    fault_at = drawn.x("badline")[0]
    bars = drawn.shapes("rect", "row") + drawn.shapes("rect", "key")
    # the legend has one too, at the left edge
    bars = [bar for bar in bars if float(bar.get("x")) > 60]
    still = {bank for bank, _, _, last in known if last == event - 1}
    reach = {bank for bank, y in ((int(lane[5:]), y) for lane, y in lanes.items())
             for bar in bars if abs(float(bar.get("y")) + 9 - y) < 2 and abs(float(bar.get("x")) + float(bar.get("width")) - fault_at) < .2}
    hold(f"{name}: banks open at the fault", reach >= still, True)
    for one in drawn.root.iter(SVG + "text"):
        text = "".join(one.itertext())
        found = re.match(r"row (\d+)(?:, open since (\d+))?$", text)
        if found and one.get("class", "").startswith("small"):
            bank = next((int(lane[5:]) for lane, y in lanes.items() if abs(float(one.get("y")) - y) < 3), None)
            fits = [first for b, row, first, _ in known if b == bank and row == int(found.group(1))]
            holds(f"{name}: {text} in bank {bank}", bank is not None and fits)
            if found.group(2):
                holds(f"{name}: {text}", int(found.group(2)) in [event_in(data, first)[0] for first in fits])


# ---- pages

class Page(HTMLParser):
    """Tags that are opened are closed; no script; nothing from elsewhere."""

    ALONE = {"meta", "line", "rect", "path", "circle"}

    def __init__(self, name, text):
        super().__init__(convert_charrefs=True)
        self.name, self.open, self.letters = name, [], []
        self.feed(text)
        self.close()
        hold(f"{name}: all is closed", self.open, [])

    def handle_starttag(self, tag, attrs):
        self.look(tag, attrs)
        if tag not in self.ALONE:
            self.open.append(tag)

    def handle_startendtag(self, tag, attrs):
        self.look(tag, attrs)

    def look(self, tag, attrs):
        if tag in ("script", "img", "link", "iframe", "object", "embed", "form", "a") and (tag != "a" or len(attrs) != 1):
            holds(f"{self.name}: no <{tag}>", False)
        for key, value in attrs:
            beside = key == "href" and re.fullmatch(r"[A-Za-z0-9._-]+\.html", value)
            if key.startswith("on") or key in ("src", "data", "action", "href", "xlink:href") and not beside:
                holds(f"{self.name}: no {key}", False)

    def handle_endtag(self, tag):
        if not self.open or self.open.pop() != tag:
            holds(f"{self.name}: </{tag}>", False)

    def handle_data(self, data):
        self.letters.append(data)


WORDS = {0: "✓ CLEAN", 1: "✗ BROKEN", 2: "– REFUSED"}


def check_page(second, name, data, text):
    import hashlib
    page = Page(name, text)
    letters = " ".join(page.letters)
    (refusal, rule, value), _ = second(JUDGE, data)
    for kind, word in WORDS.items():
        hold(f"{name}: {word}", word in letters, kind == (2 if refusal else 1 if rule else 0))
    holds(f"{name}: SHA-256", hashlib.sha256(data).hexdigest() in letters)
    holds(f"{name}: version", f"Morgazell {VERSION}" in letters)
    holds(f"{name}: the frame", f'<div class="verdict {"refused" if refusal else "broken" if rule else "clean"}">' in text)
    holds(f"{name}: lines to sign", all(word in letters for word in ("inspector", "date", "client's board")))
    if refusal:
        return holds(f"{name}: refused", "Nothing was judged" in letters and f"refused {refusal} place {value}" in letters)
    total = int.from_bytes(data[12:16], "little")
    holds(f"{name}: how much", f"{value:,} of {total:,} events" in letters)
    for warning, there in (("no events", total == 0), ("8,000 events, as many as one can", total == 8000),
                           ("Edition 1", int.from_bytes(data[20:24], "little") == 1)):
        hold(f"{name}: {warning}", warning in letters, there)
    return None


# ---- what is run

class File:
    """As much as a page wants of a file."""

    def __init__(self, name, data):
        import hashlib
        self.name, self.bytes, self.size, self.digest = name, data, len(data), hashlib.sha256(data).hexdigest()


def check():
    second = Second()
    os.environ["MORGAZELL_VERSION"] = VERSION
    with Archive([ANSWERS]) as archive:
        seen = {}
        for i, data in enumerate(generated(11, 900)):
            (refusal, rule, _), _ = second(JUDGE, data)
            seen[refusal, rule] = seen.get((refusal, rule), 0) + 1
            if seen[refusal, rule] > FEW or len(data) > 10_000:
                continue
            check_page(second, f"capture {i}", data, Sheet(archive, File(f"{i}.capture", data), None, "today").html())
            if rule:
                check_picture(second, f"capture {i}", data, Drawn(fault(Facts(archive, data))))
        hold("every rule was drawn", sorted(rule for refusal, rule in seen if not refusal), [0, 1, 2, 3, 4, 5, 7, 8, 9, 10, 11, 12, 13, 14, 15])
        hold("every refusal was told", sorted(refusal for refusal, _ in seen), [0] * 15 + [1, 2, 3, 4])
    samples(second)
    lenient(second)
    unable(second)
    second.end()


def samples(second):
    with tempfile.TemporaryDirectory() as folder, Archive([ANSWERS]) as archive:
        pages = os.path.join(folder, "pages")
        said("inspect", run("inspect", "-o", pages, *SAMPLES), 2, "", "")
        for name in SAMPLES:
            base, data = os.path.basename(name), read(name)
            check_page(second, base, data, read(os.path.join(pages, base + ".html")).decode())
            if second(JUDGE, data)[0][1]:
                check_picture(second, base, data, Drawn(fault(Facts(archive, data))))
        index = read(os.path.join(pages, "index.html")).decode()
        Page("index.html", index)
        for name in SAMPLES:
            holds("the overview has a way to each", f'href="{os.path.basename(name)}.html"' in index)
        by_word(second, archive, folder)


def by_word(second, archive, folder):
    """The word itself: a broken capture, a clean one, a refused one."""
    near = lambda name: os.path.join(os.path.dirname(SAMPLES[0]), name)
    ended = run("picture", near("tWTR.capture"))
    said("picture", ended, 1, err="")
    hold("picture", ended.stdout.decode(), '<?xml version="1.0" encoding="UTF-8"?>\n' + fault(Facts(archive, read(near("tWTR.capture")))) + "\n")
    hold("the picture in docs", read(os.path.join(ROOT, "docs", "fault.svg")), ended.stdout)
    said("picture of a clean one", run("picture", near("clean-power-down.capture")), 0, "")
    out = os.path.join(folder, "x.svg")
    said("picture of a refused one", run("picture", near("cut-short.capture"), "-o", out), 2, "")
    hold("nothing was written", os.path.exists(out), False)
    said("picture into a file", run("picture", near("tWTR.capture"), "-o", out), 1, "", "")
    hold("picture into a file", read(out), ended.stdout)


def lenient(second):
    """The sheet's settings: a capture with a shorter tWTR than the sheet's is warned of, one with the sheet's is not."""
    with tempfile.TemporaryDirectory() as folder:
        name = os.path.join(os.path.dirname(SAMPLES[0]), "clean-MT46H64M16LF.capture")
        data = read(name)
        shorter = data[:24 + 4 * 10] + bytes_of(1) + data[24 + 4 * 11:]
        put(folder, "shorter.capture", shorter)
        said("a part", run("inspect", "--part", "MT46H64M16LF -54 CL3", "-o", "pages", name, "shorter.capture", cwd=folder), 0, "", "")
        same = read(os.path.join(folder, "pages", os.path.basename(name) + ".html")).decode()
        less = read(os.path.join(folder, "pages", "shorter.capture.html")).decode()
        hold("no warning", "more lenient" in same, False)
        holds("a warning", "<b>tWTR</b> more lenient than the data sheet" in less and "<td>2 ≠ more lenient</td>" in less)
        said("no such part", run("inspect", "--part", "nothing", name, cwd=folder), 64)
        hold("parts", "MT46H64M16LF -5 CL3\n" in run("inspect", "--part", "list").stdout.decode(), True)


def unable(second):
    """An archive that cannot explain: the page says so, no picture is drawn, the verdict stands."""
    name = os.path.join(os.path.dirname(SAMPLES[0]), "tWTR.capture")
    with tempfile.TemporaryDirectory() as folder:
        said("inspect", run("inspect", "-o", folder, name, MORGAZELL_ABLE="0"), 1, "", "")
        text = read(os.path.join(folder, "tWTR.capture.html")).decode()
        check_page(second, "without explanations", read(name), text)
        holds("it is said", "this archive cannot explain faults" in html.unescape(text) and "dimension" not in text)
        hold("one picture, the strip", text.count("<svg"), 1)
    said("picture", run("picture", name, MORGAZELL_ABLE="0"), 70, "", "morgazell: this archive cannot explain faults; nothing was written\n")
