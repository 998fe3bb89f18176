"""A capture as text that a person would type, and back. docs/USING.md has every line of it.

    edition 0
    lane code 1
    ..
    tREFI 1000

    0 ACTIVE bank 0 row 5            # a comment
    3 READ bank 0 column 5 auto precharge
    9 0x000e0001                     # pins that no words name"""
import re

from .capture import A10, CODES, COLUMN_BITS, LAST_CYCLE, LOW, MODE, MOST_EVENTS, NAMES, Event, whole
from .words import command, mode

NUMBER = re.compile(r"(?:0[xX][0-9a-fA-F]+|[0-9]+)\Z")
TOKEN = re.compile(r"[^\s,]+|,")


class Wrong(Exception):
    """What is wrong with a text, and where: line and column count from 1."""

    def __init__(self, line, column, why):
        super().__init__(f"line {line}, column {column}: {why}")
        self.line, self.column, self.why = line, column, why


# ---- to text

def text_of(capture):
    lines = [f"edition {capture.edition}"]
    for name, value in zip(NAMES, capture.settings):
        is_mode = name == NAMES[MODE]
        lines.append(f"{name} 0x{value:02x}  # {mode(value)}" if is_mode else f"{name} {value}")
    column_bits = capture.settings[COLUMN_BITS]
    lines += ["" for _ in capture.events[:1]]
    lines += [f"{event.cycle} {event_text(event, column_bits)}" for event in capture.events]
    return "".join(line + "\n" for line in lines)


def event_text(event, column_bits):
    """Its words, or the raw pins with the words behind them where other pins are set than the words name."""
    said = command(event, column_bits)
    if pins_of(Line(0, said), column_bits) == event.pins:
        return said
    return f"0x{event.pins:08x}  # {said}"


# ---- from text

class Line:
    """The words of a line, taken one by one."""

    def __init__(self, number, text):
        self.number = number
        bare = text.split("#", 1)[0]
        self.tokens = [(match.start() + 1, match.group()) for match in TOKEN.finditer(bare)]
        self.end = len(bare.rstrip()) + 1
        self.at = 0

    def wrong(self, why, column=None):
        return Wrong(self.number, self.column() if column is None else column, why)

    def column(self):
        return self.tokens[self.at][0] if self.at < len(self.tokens) else self.end

    def peek(self):
        return self.tokens[self.at][1] if self.at < len(self.tokens) else ""

    def starts_with(self, *words):
        found = [token.upper() for _, token in self.tokens[self.at:self.at + len(words)]]
        return found == [word.upper() for word in words]

    def take(self, *words):
        """Whether these words come next; they are taken then."""
        if not self.starts_with(*words):
            return False
        self.at += len(words)
        return True

    def want(self, *words):
        if not self.take(*words):
            raise self.wrong(f"`{' '.join(words)}` is missing")

    def number_below(self, limit, what):
        token = self.peek()
        if not NUMBER.match(token):
            raise self.wrong(f"{what} is missing" if not token else f"{what} is no number")
        value = int(token, 16) if token[1:2] in "xX" and len(token) > 1 else int(token)
        if value >= limit:
            raise self.wrong(f"{what} is above {limit - 1}")
        self.at += 1
        return value

    def ends(self):
        if self.at < len(self.tokens):
            raise self.wrong(f"`{self.peek()}` is not expected here")


def pins_of(line, column_bits):
    """The pins that a command's words ask for; those they do not name are 0."""
    pins = command_pins(line, column_bits)
    line.take(",")
    if line.take("CKE", "low"):
        pins |= LOW
    line.ends()
    return pins


def command_pins(line, column_bits):
    for name in ("BURST TERMINATE", "AUTO REFRESH", "NOP", "DESELECT"):
        if line.take(*name.split()):
            return CODES[name]
    if line.take("ACTIVE"):
        return CODES["ACTIVE"] | bank_pins(line) | named(line, "row", 1 << 14)
    for name in ("READ", "WRITE"):
        if line.take(name):
            return CODES[name] | bank_pins(line) | column_pins(line, column_bits)
    if line.take("PRECHARGE"):
        return CODES["PRECHARGE"] | (A10 if line.take("ALL") else bank_pins(line))
    if line.take("MODE", "REGISTER", "SET"):
        return register_pins(line)
    raise line.wrong("a command is missing" if not line.peek() else f"`{line.peek()}` is no command")


def named(line, what, limit):
    line.want(what)
    return line.number_below(limit, f"the {what}")


def bank_pins(line):
    return named(line, "bank", 4) << 14


def column_pins(line, column_bits):
    column = named(line, "column", 1 << column_bits)
    auto = A10 if line.take("auto", "precharge") else 0
    return column & 0x3FF | (column >> 10) << 11 | auto


def register_pins(line):
    line.want("register")
    registers = {"00": 0, "01": 1, "10": 2, "11": 3}
    if line.peek() not in registers:
        raise line.wrong("the register is 00, 01, 10 or 11")
    register = registers[line.peek()]
    line.at += 1
    return register << 14 | named(line, "value", 1 << 14)


def lines_of(text):
    return [Line(number, line) for number, line in enumerate(re.split("\r\n|\n", text), 1)]


class Typed:
    """A capture as it was typed: its bytes, and the lines on which edition, settings and events stand."""

    def __init__(self, text):
        settings, events = {}, []
        lines = lines_of(text)
        for line in lines:
            if NUMBER.match(line.peek()):
                events.append(line)
            elif line.tokens:
                setting(line, settings)
        values = complete(settings, len(lines))
        if len(events) > MOST_EVENTS:
            raise events[MOST_EVENTS].wrong(f"a capture has {MOST_EVENTS} events at most")
        words = [event(line, values[COLUMN_BITS]) for line in events]
        self.edition_line, edition = settings.get("edition", (1, 0))
        self.setting_lines = [settings[name][0] for name in NAMES[:len(values)]]
        self.event_lines = [line.number for line in events]
        self.data = whole(edition, values, words)

    def line_of(self, answer):
        """Where that stands which the library refuses."""
        lines = {3: self.setting_lines, 4: self.event_lines}.get(answer.refusal)
        return lines[answer.value] if lines else self.edition_line


def setting(line, settings):
    for name in ["edition"] + NAMES:
        if line.starts_with(*name.split()):
            if name in settings:
                raise line.wrong(f"{name} stands on line {settings[name][0]} already")
            line.take(*name.split())
            settings[name] = line.number, line.number_below(1 << 32, name)
            return line.ends()
    raise line.wrong(f"`{line.peek()}` is no setting, and no cycle")


def complete(settings, end):
    """The fourteen or sixteen values."""
    count = 16 if set(settings) & set(NAMES[14:]) else 14
    for name in NAMES[:count]:
        if name not in settings:
            raise Wrong(end, 1, f"{name} is missing")
    return [settings[name][1] for name in NAMES[:count]]


def event(line, column_bits):
    cycle = line.number_below(LAST_CYCLE + 1, "the cycle")
    if NUMBER.match(line.peek()):
        pins = line.number_below(1 << 32, "the pin word")
        line.ends()
        return cycle, pins
    return cycle, pins_of(line, column_bits)


# ---- settings, requests and words for the bench

def settings_of(text):
    """The first fourteen settings and the edition; events may stand behind them, as in a capture's text."""
    settings, lines = {}, lines_of(text)
    for line in lines:
        if line.tokens and not NUMBER.match(line.peek()):
            setting(line, settings)
    return complete(settings, len(lines))[:14], settings.get("edition", (0, 0))[1]


def requests_of(text):
    """Requests as numbers, `read 5` and `write 8388608` a line, and the lines that they stand on."""
    requests, places = [], []
    for line in lines_of(text):
        if line.tokens:
            writes = line.take("write")
            if not writes and not line.take("read"):
                raise line.wrong(f"`{line.peek()}` is neither `read` nor `write`")
            requests.append(writes << 31 | line.number_below(1 << 27, "the cell"))
            places.append(line.number)
            line.ends()
    return requests, places


def numbers_of(text):
    """Words of 32 bits, any number a line, and the lines that they stand on."""
    numbers, places = [], []
    for line in lines_of(text):
        while line.at < len(line.tokens):
            numbers.append(line.number_below(1 << 32, "a word"))
            places.append(line.number)
    return numbers, places
