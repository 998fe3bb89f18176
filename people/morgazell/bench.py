"""The words of the bench: schedules of requests, exports read, captures played, the month in numbers."""
import os
import subprocess
import threading

from . import text, words
from .capture import Capture
from .common import (DONE, NOTHING, REFUSED, STOPPED, UNREADABLE, WRONG_USE, Complaint, clean, name_of, put, start, whole,
                     whole_bytes, whole_text)
from .files import opened, write, write_out
from .inspecting import named_part

POLICIES = {"open": 0, "closed": 1}
SHORTEST, LONGEST = 80, 64_088
# More than any call takes, so that it refuses what is too long itself.
MOST_REQUESTS, MOST_WINDOW, MOST_WRITES, MOST_RECORD_BYTES = 3_000, 20_000, 300_000, 60_000


# ---- settings

class Settings:
    """Fourteen of them, from a part's sheet, from text or from a capture; with the edition that stands there."""

    def __init__(self, archive, options):
        if options.part is not None:
            self.where, self.values, self.edition = options.part, named_part(options.part).settings[:14], 0
            return
        self.where, file = name_of(options.settings), whole(options.settings)
        if not archive.judge(file.bytes).refusal:
            capture = Capture(file.bytes)
            self.values, self.edition = capture.settings[:14], capture.edition
            return
        try:
            self.values, self.edition = text.settings_of(decoded(file, options.settings))
        except text.Wrong as error:
            raise Complaint(REFUSED, f"{self.where}: {error}; {NOTHING}") from None

    def wrong(self, place):
        return f"{self.where}: {words.wrong_setting(self.values, place)}"


def decoded(file, name):
    try:
        return file.bytes.decode()
    except UnicodeDecodeError:
        raise Complaint(REFUSED, f"{name_of(name)}: neither a capture nor settings as text; {NOTHING}") from None


def refuse(answer, why):
    raise Complaint(REFUSED, f"refused {answer.refusal} place {answer.value}: {why}; {NOTHING}")


# ---- words of the command

def schedule(options):
    requests, lines = numbers_of(options.file, text.requests_of)
    with start() as archive:
        settings = Settings(archive, options)
        answer, data = archive.schedule(settings.values, requests[:MOST_REQUESTS], POLICIES[options.policy])
    if answer.refusal:
        refuse(answer, why_no_schedule(answer, settings, options.file, lines))
    put(options.output, data)
    return DONE


def why_no_schedule(answer, settings, name, lines):
    if answer.refusal == 3:
        return settings.wrong(answer.value)
    where = name_of(name)
    if answer.refusal == 5 and len(lines) > 2_000:
        return f"{where}: {words.number(len(lines))} requests, and 2,000 are the most"
    if answer.refusal == 5:
        return f"{where}, line {lines[answer.value]}: the part has no such cell"
    if answer.refusal == 6:
        return f"{where}, line {lines[answer.value]}: refresh cannot be kept by these settings"
    return "the settings are not fourteen"


def from_export(options):
    records = whole_bytes(options.file)
    if len(records) > MOST_RECORD_BYTES:
        records = records[:MOST_RECORD_BYTES + len(records) % 6]
    with start() as archive:
        settings = Settings(archive, options)
        edition = settings.edition if options.edition is None else options.edition
        answer, data = archive.read_export(records, settings.values, edition)
    if answer.refusal:
        refuse(answer, why_no_capture(answer, settings, name_of(options.file), len(records)))
    put(options.output, data)
    return DONE


def why_no_capture(answer, settings, where, length):
    if answer.refusal == 2:
        return "the edition is 0 or 1"
    if answer.refusal == 3:
        return settings.wrong(answer.value)
    if answer.refusal == 11 and length % 6:
        return f"{where}: a record has 6 bytes, and the file no whole number of them"
    if answer.refusal == 11 and answer.value == 8_000 and length > 48_000:
        return f"{where}: over 8,000 records"
    if answer.refusal == 11:
        return f"{where}: record {answer.value} has the stamp of the one before it"
    return f"{where}: record {answer.value} has pins that do not exist"


def play(options):
    window, _ = numbers_of(options.window, text.numbers_of) if options.window else ([0] * options.zeros, [])
    writes, _ = numbers_of(options.writes, text.numbers_of) if options.writes else ([], [])
    with start() as archive:
        file = clean(archive, options.file)
        answer, window, reads = archive.play(file.bytes, options.first, window[:MOST_WINDOW], writes[:MOST_WRITES])
    if answer.refusal:
        refuse(answer, why_not_played(answer, Capture(file.bytes)))
    lines = [f"read 0x{word:08x}" for word in reads]
    lines += [f"cell {options.first + i} 0x{word:08x}" for i, word in enumerate(window)]
    write(options.output, "".join(line + "\n" for line in lines).encode())
    return DONE


def why_not_played(answer, capture):
    """Place 0 is the window's, unless event 0 could be meant, which no burst is: an ACTIVE comes before it."""
    if answer.value == 0:
        return "the window has over 16,384 words, or leaves the part"
    return (f"event {answer.value}, {words.event(capture, answer.value)}: a kept beat lies outside the window, or there are "
            "too few words to write or masks")


def numbers_of(name, reader):
    try:
        return reader(whole_text(name))
    except text.Wrong as error:
        raise Complaint(REFUSED, f"{name_of(name)}: {error}; {NOTHING}") from None


# ---- the month

def month(options):
    """The captures of the files one behind another, through the proved program month. They are parted by their lengths, so a
    file that is cut short would spoil those behind it: it is told of before anything is counted."""
    hold_whole(options.files)
    command = os.environ.get("MORGAZELL_MONTH", "").split("\n")
    if command == [""]:
        raise Complaint(STOPPED, "the program month is not there; rt check month builds it")
    try:
        process = subprocess.Popen(command, stdin=subprocess.PIPE, stdout=subprocess.PIPE)
    except OSError as error:
        raise Complaint(STOPPED, f"{command[0]} cannot be started: {error.strerror}") from None
    pouring = Pouring(process, options.files)
    try:
        end = b""
        while piece := process.stdout.read1(1 << 16):
            write_out(piece)
            end = (end + piece)[-400:]
    except BaseException:
        process.kill()
        raise
    finally:
        pouring.join()
        process.wait()
    return month_ended(pouring, end.decode("ascii", "replace").split("\n"))


def month_ended(pouring, lines):
    """By its last line: a program of the kit has no status."""
    if pouring.failed:
        raise pouring.failed
    last = lines[-2] if len(lines) > 1 and lines[-1] == "" else ""
    if last == "refused 14 place 10000":
        return REFUSED
    if last.startswith("all captures "):
        return DONE
    raise Complaint(STOPPED, "the program month ended without its totals")


class Pouring(threading.Thread):
    """Files one behind another into a program, beside reading what it says. It gets no end where one cannot be read."""

    def __init__(self, process, names):
        super().__init__()
        self.process, self.names, self.failed = process, names, None
        self.start()

    def run(self):
        try:
            for name in self.names:
                pour(name, self.process.stdin)
            self.process.stdin.close()
        except BrokenPipeError:
            pass  # it has seen the end of the month and says so
        except Complaint as error:
            self.failed = error
            self.process.kill()


def hold_whole(names):
    if len(names) > 1 and "-" in names:
        raise Complaint(WRONG_USE, "month takes standard input alone")
    for name in names[:-1]:
        try:
            with open(name, "rb") as file:
                if not ends_with_a_capture(file):
                    raise Complaint(REFUSED, f"{name_of(name)}: its captures do not end where the file ends, so those behind "
                                             "it would be misread; morgazell judge says more; nothing was counted")
        except OSError as error:
            raise Complaint(UNREADABLE, f"{name_of(name)} cannot be read: {error.strerror}; nothing was counted") from None


def ends_with_a_capture(file):
    """Whether the lengths that its captures state lead to its end."""
    at, size = 0, file.seek(0, os.SEEK_END)
    while at < size:
        file.seek(at)
        total = int.from_bytes(file.read(4), "little")
        if not SHORTEST <= total <= LONGEST:
            return False
        at += total
    return at == size


def pour(name, stream):
    try:
        with opened(name) as file:
            while piece := file.read(1 << 16):
                stream.write(piece)
    except BrokenPipeError:
        raise
    except OSError as error:
        raise Complaint(UNREADABLE, f"{name_of(name)} cannot be read: {error.strerror}") from None
