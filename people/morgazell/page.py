"""The inspection page: one sheet of A4, HTML with its pictures in it, no script, readable in black and white."""
import os
from html import escape

from . import picture, words
from .capture import MODE, NAMES, T_REFI
from .facts import Differ, Facts
from .files import shown
from .strip import strip

CSS = """@page{size:A4;margin:8mm 11mm}
*{box-sizing:border-box} body{font:10.5px/1.35 'DejaVu Sans',Helvetica,Arial,sans-serif;color:#111;background:#fff}
body{max-width:186mm;margin:0 auto}
h1{font-size:17px;margin:4px 0 2px} h2{font-size:11.5px;margin:6px 0 2px;border-bottom:1px solid #111} p{margin:2px 0}
.verdict{border:3px solid #111;padding:5px 10px;margin:6px 0;display:flex;gap:14px;align-items:center}
.verdict b{font-size:22px;white-space:nowrap} .verdict span{font-size:12px} .broken b{color:#b00020} .refused{border-style:dashed}
.head{display:grid;grid-template-columns:auto 1fr auto 1fr;gap:1px 10px} .head i{font-style:normal;color:#666}
.head b{overflow-wrap:anywhere} code{font:9.5px 'DejaVu Sans Mono',monospace;overflow-wrap:anywhere}
table{border-collapse:collapse;font-size:9px}
td,th{border:1px solid #999;padding:0 4px;text-align:left;white-space:nowrap} th{background:#eee}
td code{white-space:normal} td.n{text-align:right} .bad td{font-weight:bold;border:2px solid #b00020;color:#b00020}
.cols{display:flex;gap:8px;align-items:flex-start}
ul{margin:2px 0 2px 16px;padding:0} .warn{border-left:4px solid #111;padding:0 8px;margin:2px 0} svg{display:block}
.sign{display:flex;gap:24px;margin-top:16px} .sign div{flex:1;border-top:1px solid #111;padding-top:1px;color:#666}
footer{color:#666;font-size:8.5px;margin-top:6px;border-top:1px solid #ccc}
@media print{body{max-width:none} h2,.verdict,.sign,svg,table{break-inside:avoid}}"""

POLICY = "default-src 'none'; style-src 'unsafe-inline'"


def begin(title):
    return ('<!doctype html><html lang="en"><head><meta charset="utf-8">'
            f'<meta http-equiv="Content-Security-Policy" content="{POLICY}">'
            f"<title>{escape(title)}</title><style>{CSS}</style></head><body>\n")


OUTSIDE = "Electrical values, power-up, deep power-down and status read are outside the rules."


class Sheet:
    """What a page says of one file."""

    def __init__(self, archive, file, part, now):
        self.file, self.part, self.now = file, part, now
        self.version = archive.version()
        self.answer = archive.judge(file.bytes)
        self.facts, self.undrawn = None, None
        if not self.answer.refusal:
            try:
                self.facts = Facts(archive, file.bytes)
            except Differ as error:
                self.undrawn = str(error)
        self.name = shown("standard input" if file.name == "-" else os.path.basename(file.name))

    @property
    def kind(self):
        return "refused" if self.answer.refusal else "broken" if self.answer.rule else "clean"

    def html(self):
        line, middle, means = {"refused": self.refused, "broken": self.broken, "clean": self.clean}[self.kind]()
        word = KINDS[self.kind].upper()
        if self.kind == "clean" and self.answer.value == 0:
            word += ", EMPTY"
        return (begin(f"{self.name}: {self.kind}") + self.head()
                + f'<div class="verdict {self.kind}"><b>{word}</b><span>{escape(line)}</span></div>\n{middle}'
                + listed("What this means" if self.kind == "refused" else "What this verdict means, and what not", means)
                + foot(self.version, "<h2>The fault</h2><svg" in middle) + "</body></html>\n")

    def head(self):
        return (f'<h1>Inspection of a Mobile DDR capture</h1>\n<div class="head"><i>file</i><b>{escape(self.name)}</b>'
                f"<i>inspected</i><span>{self.now}</span>\n<i>SHA-256</i><code>{self.file.digest}</code>"
                f"<i>judged by</i><span>Morgazell {self.version}</span>\n<i>size</i><span>{words.number(self.file.size)} bytes</span>"
                f"<i>judged</i><span>{self.judged()}</span></div>\n")

    def judged(self):
        if self.answer.refusal:
            return "nothing"
        return f"{words.number(self.answer.value)} of {words.number(words.header(self.file.bytes)[3])} events"

    # ---- the three kinds

    def refused(self):
        why = words.refused(self.file.bytes, self.file.size, self.answer)
        means = ["A refused file is neither clean nor broken: it has no verdict.",
                 f"The judge's answer: refused {self.answer.refusal} place {self.answer.value}."]
        by = {1: self.lengths, 2: self.header_words, 3: self.bad_setting, 4: self.bad_event}
        return f"Nothing was judged: {why}.", by[self.answer.refusal](), means

    def broken(self):
        rule, judged = self.answer.rule, words.number(self.answer.value)
        if self.facts is None:
            return self.undrawn_page(f"Rule {rule} ({words.TITLES[rule]}) is broken at event {self.answer.value}.")
        line = f"Rule {rule} ({words.TITLES[rule]}) is broken at event {self.answer.value}, cycle {self.facts.event.cycle}."
        drawn = self.drawn()
        means = [f"The {judged} events before it were judged and break no rule. Judging ends here: later events were not judged, "
                 "and there may be more faults.", "Where an event breaks several rules, the lowest is named."]
        return line, f"<h2>The fault</h2>{drawn}\n" + self.middle(), means + self.common()

    def drawn(self):
        if not self.facts.explained:
            return not_drawn("this archive cannot explain faults")
        try:
            return picture.fault(self.facts)
        except Differ as error:
            return not_drawn(f"{error}. Please tell us")

    def clean(self):
        if self.facts is None:
            return self.undrawn_page(f"All {words.number(self.answer.value)} events were judged; none breaks a rule.")
        last = words.number(self.last())
        line = f"All {words.number(self.answer.value)} events were judged, up to cycle {last}; none breaks a rule."
        if self.answer.value == 0:
            line = "There are no events: nothing was recorded that could break a rule."
        means = ["Clean is said only of a file that was judged to its last event. That the judge says so exactly where no event "
                 "breaks a rule is proved for every file."]
        return line, self.middle(), means + self.common()

    def undrawn_page(self, line):
        return line, not_drawn(f"{self.undrawn}. Please tell us"), [OUTSIDE]

    def last(self):
        events = self.facts.capture.events
        return events[-1].cycle if events else 0

    def middle(self):
        against = f" against the data sheet of {escape(self.part.name)}" if self.part else ""
        return (f"<h2>How much was judged</h2>{strip(self.facts)}{self.warnings()}\n<h2>Settings{against}</h2>"
                f"{settings_table(self.facts.capture.settings, self.part)}\n")

    def common(self):
        compared = "compare the last column" if self.part else "no part was named, so they were compared with nothing"
        return ["The rules were applied with the settings above. Whether these are the part's is the operator's to see to: "
                f"{compared}.",
                "At cycle 0 all banks are taken to be idle and no refresh to be owed. Nothing is said of what came before, of what "
                f"came after cycle {words.number(self.last())}, or of commands that the instrument did not record.", OUTSIDE]

    def warnings(self):
        capture, out = self.facts.capture, []
        if capture.n == 0:
            out.append("The capture holds <b>no events</b>. Check that the instrument was triggered.")
        if capture.n == 8_000:
            out.append("The capture holds 8,000 events, as many as one can: the recorder may have been full before the traffic "
                       "ended.")
        if capture.edition == 1:
            out.append("<b>Edition 1</b>: READ and PRECHARGE may cut a write short. By edition 0 a board that does so fails.")
        other = self.part.other_shape(capture.settings) if self.part else []
        if other:
            out.append(f"<b>{', '.join(other)}</b> not as on the data sheet: is this the part that was recorded?")
        weak = self.part.lenient(capture.settings) if self.part else []
        if weak:
            out.append(f"<b>{', '.join(weak)}</b> more lenient than the data sheet: a board that breaks the sheet's value may be "
                       "called clean.")
        return "".join(f'<p class="warn">{words_}</p>' for words_ in out)

    # ---- refused files

    def lengths(self):
        first = words.header(self.file.bytes)
        if len(first) < 6 or not words.is_capture_like(first) or first[0] == self.file.size:
            return ""
        most, says, has = max(first[0], self.file.size), first[0], self.file.size
        bar = lambda y, n, style, text: (f'<rect x="4" y="{y}" width="{640 * n / most:.0f}" height="16" style="{style}"/>'
                                         f'<text x="10" y="{y + 12}" style="font:10px sans-serif">{text}</text>')
        return ('<svg viewBox="0 0 700 46" width="100%" role="img">'
                + bar(2, says, "fill:none;stroke:#111;stroke-dasharray:4 3", f"says it has {words.number(says)} bytes")
                + bar(24, has, "fill:#ccc;stroke:#111", f"has {words.number(has)} bytes") + "</svg>")

    def header_words(self):
        values = words.header(self.file.bytes)
        wanted_words = enumerate(words.wanted_header(values))
        rows = [f'<tr{"" if right else bad()}><td class="n">{4 * i}</td><td>{words.HEADER[i]}</td>'
                f"<td>{words.number(values[i])}</td><td>{wanted}</td></tr>" for i, (right, wanted) in wanted_words]
        return "<h2>The header</h2>" + table(["byte", "word", "is", "should be"], rows)

    def bad_setting(self):
        return "<h2>Settings</h2>" + settings_table(words.settings_in(self.file.bytes), None, self.answer.value)

    def bad_event(self):
        place, rows = self.answer.value, []
        for i in range(max(0, place - 2), place + 1):
            cycle, pins = words.event_words(self.file.bytes, i)
            rows.append(f'<tr{bad() if i == place else ""}><td class="n">{i}</td><td class="n">{words.number(cycle)}</td>'
                        f"<td><code>0x{cycle:08x} 0x{pins:08x}</code></td></tr>")
        return "<h2>The event and those before it</h2>" + table(["event", "cycle", "words"], rows)


def not_drawn(why):
    return f'<p class="warn">No picture: {escape(why)}. The verdict stands.</p>'


def bad():
    return ' class="bad"'


def table(head, rows):
    return f"<table><tr>{''.join(f'<th>{word}</th>' for word in head)}</tr>{''.join(rows)}</table>"


def listed(title, items):
    return f"<h2>{title}</h2><ul>{''.join(f'<li>{escape(item)}</li>' for item in items)}</ul>\n"


def settings_table(settings, part, wrong=None):
    """Settings by name, side by side; beside them the sheet's where a part was named."""
    rows = [setting_row(i, value, part, i == wrong) for i, value in enumerate(settings)]
    head = ["no.", "setting", "capture"] + (["sheet"] if part else [])
    cuts = (0, 5, 10, 16) if part else (0, 4, 9, 14, 16)
    tables = [table(head, rows[a:b]) for a, b in zip(cuts, cuts[1:]) if rows[a:b]]
    return f'<div class="cols">{"".join(tables)}</div>'


def setting_row(i, value, part, wrong):
    text = words.number(value)
    if i == MODE and not wrong:
        text = f"BL {1 << (value & 7)}, CL {value >> 4 & 7}, {'interl.' if value & 8 else 'sequ.'}"
    elif i == MODE:
        text = f"0x{value:02x}"
    note, boxed = ("", wrong) if part is None else beside_sheet(i, value, part.settings[i])
    return f'<tr{bad() if boxed else ""}><td class="n">{i}</td><td>{NAMES[i]}</td><td>{text}</td>{note}</tr>'


def beside_sheet(i, value, sheet):
    """The sheet's value, and whether it is to be boxed: more lenient, or of another part."""
    if value == sheet:
        return "<td>same</td>", False
    if i == MODE:
        other = value >> 4 != sheet >> 4
        return f"<td>CL {sheet >> 4 & 7} ≠</td>" if other else "<td>same CL</td>", other
    if i < MODE:
        return f"<td>{sheet} ≠</td>", True
    lenient = value > sheet if i == T_REFI else value < sheet
    return f"<td>{words.number(sheet)} ≠ {'more lenient' if lenient else 'stricter'}</td>", lenient


def foot(version, drawn):
    """Where a fault is drawn, what of the picture is the library's word."""
    also = ("; the first cycle allowed, what it counts from, open rows and kept pairs are the library's answers too. Picture and "
            "wording are not proved." if drawn else ". The wording is not proved.")
    return ('<div class="sign"><div>inspector</div><div>date</div><div>client\'s board and serial number</div></div>\n<footer>'
            f"The verdict is the answer of morgazell_judge {version} to the bytes with this SHA-256{also}</footer>\n")


class Unread:
    """A file that cannot be read, in the overview."""

    kind = "unread"

    def __init__(self, name, why):
        self.name, self.why = shown(os.path.basename(name)), why


KINDS = {"clean": "✓ clean", "broken": "✗ broken", "refused": "– refused", "unread": "– cannot be read"}


def overview(sheets, now):
    """One line a file, with a way to its page."""
    count = {kind: sum(sheet.kind == kind for sheet, _ in sheets) for kind in KINDS}
    told = ", ".join(f"{count[kind]} {said[2:]}" for kind, said in KINDS.items() if count[kind])
    title = f"{len(sheets)} capture{'' if len(sheets) == 1 else 's'} inspected"
    rows = [overview_row(sheet, link) for sheet, link in sheets]
    return (begin(title) + f"<h1>{title}</h1><p>{now}: {told}.</p>"
            + table(["file", "verdict", "rule", "judged", "SHA-256"], rows) + "</body></html>\n")


def overview_row(sheet, link):
    begins = f"<tr{bad() if sheet.kind != 'clean' else ''}><td>"
    if link is None:
        return f'{begins}{escape(sheet.name)}</td><td>{KINDS[sheet.kind]}</td><td colspan="3">{escape(sheet.why)}</td></tr>'
    return (f'{begins}<a href="{escape(link, quote=True)}">{escape(sheet.name)}</a></td><td>{KINDS[sheet.kind]}</td>'
            f'<td class="n">{sheet.answer.rule or ""}</td><td class="n">{sheet.judged()}</td>'
            f"<td><code>{sheet.file.digest}</code></td></tr>")
