"""Verdicts on many files: a line a file, or JSON, or JUnit's XML for a nightly rig."""
import os
import struct
import sys

from . import words
from .archive import FILE_CHANGED
from .common import BROKEN, DONE, REFUSED, UNREADABLE, WRONG_USE, Complaint, name_of, start
from .files import Unreadable, Whole, write, write_out

STATUS = {DONE: "clean", BROKEN: "broken", REFUSED: "refused", UNREADABLE: "unreadable"}


# Why a recording is refused; what it has there may stand far behind its beginning.
LONG = {1: "it is not as long as it says, or too short", 2: "its header is wrong",
        3: "a setting is out of its range, or the settings contradict each other",
        4: "an event has pins that do not exist, or a cycle that is too large or does not rise"}


class Verdict:
    """What is said of one file."""

    def __init__(self, name, answer, why, events, cycle, file=None, recording=False):
        self.name, self.answer, self.events, self.cycle = name, answer, events, cycle
        if why != 0:
            self.status, self.why = UNREADABLE, why
        elif answer.refusal:
            self.status, self.why = REFUSED, LONG[answer.refusal] if recording else refusal_of(name, answer, file)
        else:
            self.status, self.why = (BROKEN, words.BROKEN[answer.rule]) if answer.rule else (DONE, "")

    def line(self):
        return f"{name_of(self.name)}: {self.said()}"

    def said(self):
        if self.status == UNREADABLE:
            return f"cannot be read: {self.why}"
        value = self.answer.value
        if self.status == REFUSED:
            return f"refused {self.answer.refusal} place {value}: {self.why}"
        if self.status == BROKEN:
            return f"breaks rule {self.answer.rule} at event {value}, cycle {self.cycle}: {self.why}"
        return f"clean, {value} events judged"

    def fields(self):
        """For programs; a file that was not judged has no count of judged events."""
        told = {"file": name_of(self.name), "status": STATUS[self.status]}
        if self.status == UNREADABLE:
            return told | {"why": self.why}
        if self.status == REFUSED:
            return told | {"refusal": self.answer.refusal, "place": self.answer.value, "why": self.why}
        told |= {"events": self.events, "judged": self.answer.value}
        if self.status == BROKEN:
            told |= {"rule": self.answer.rule, "event": self.answer.value, "cycle": self.cycle, "why": self.why}
        return told


def refusal_of(name, answer, file):
    """In words, by what stands in the file; the number decides, whatever the file has by now."""
    try:
        file = file or Whole(name)
        return words.refused(file.bytes, file.size, answer)
    except (Unreadable, LookupError, ValueError, TypeError, struct.error):
        return "it is no capture"


def of_file(name, told, recording):
    answer, why, events, cycle = told
    reason = "it changed while it was read" if why == FILE_CHANGED else os.strerror(why) if why else 0
    return Verdict(name, answer, reason, events, cycle, None, recording)


def of_input(archive):
    """Standard input, which the program that asks the library cannot read for us."""
    try:
        file = Whole("-")
    except Unreadable as error:
        return Verdict("-", None, str(error), 0, 0)
    answer = archive.judge(file.bytes)
    head = words.header(file.bytes)
    cycle = words.event_words(file.bytes, answer.value)[0] if answer.rule else 0
    return Verdict("-", answer, 0, 0 if answer.refusal else head[3], cycle, file)


def in_turn(archive, names, recordings):
    """Of each file in its turn."""
    told = archive.judge_files((name for name in names if name != "-"), recordings)
    for name in names:
        yield of_input(archive) if name == "-" else of_file(name, next(told), recordings)


def verdicts(archive, names, jobs, recordings):
    """Of each file in their order, by so many processes; the first of them is there."""
    if jobs == 1 or "-" in names:
        yield from in_turn(archive, names, recordings)
        return
    from concurrent.futures import ThreadPoolExecutor

    def judged(share):
        with start() as other:
            return list(in_turn(other, share, recordings))

    with ThreadPoolExecutor(jobs) as pool:
        done = list(pool.map(judged, [names[i::jobs] for i in range(jobs)]))
    for i in range(len(names)):
        yield done[i % jobs][i // jobs]


class Progress:
    """A line on a terminal that says how far it is, and none elsewhere."""

    def __init__(self, whole):
        self.whole, self.done, self.written = whole, 0, False
        self.shows = sys.stderr is not None and sys.stderr.isatty()

    def step(self):
        self.done += 1
        if self.shows and self.done % 64 == 0:
            sys.stderr.write(f"\r{self.done} of {self.whole} files")
            sys.stderr.flush()
            self.written = True

    def clear(self):
        if self.written:
            sys.stderr.write("\r\x1b[K")
            sys.stderr.flush()
            self.written = False


def judge(options):
    """The word `judge`. Lines go out many at a time, and at once on a terminal."""
    if options.recording and "-" in options.files:
        raise Complaint(WRONG_USE, "a recording is mapped, and standard input cannot be")
    progress, said, lines = Progress(len(options.files)), [], []
    at_once = sys.stdout is not None and sys.stdout.isatty()
    with start() as archive:
        for verdict in verdicts(archive, options.files, min(options.jobs, len(options.files)), options.recording):
            said.append(verdict)
            lines.append(verdict.line() + "\n")
            if not options.json and (at_once or len(lines) == 256):
                progress.clear()
                write_out("".join(lines).encode())
                lines.clear()
            progress.step()
        version = archive.version() if options.json or options.junit else None
    progress.clear()
    write_out((as_json(version, said) if options.json else "".join(lines)).encode())
    if options.junit:
        write(options.junit, as_junit(version, said).encode())
    return max(verdict.status for verdict in said)


def as_json(version, all_of_them):
    import json
    told = {"version": version, "files": [verdict.fields() for verdict in all_of_them]}
    return json.dumps(told, indent=1, ensure_ascii=True) + "\n"


def as_junit(version, all_of_them):
    """A test case a file: a broken rule is a failure; a file that was not judged is an error, never a pass."""
    from xml.sax.saxutils import escape, quoteattr
    count = {status: sum(verdict.status == status for verdict in all_of_them) for status in STATUS}
    lines = ['<?xml version="1.0" encoding="UTF-8"?>',
             f'<testsuite name="morgazell {version}" tests="{len(all_of_them)}" failures="{count[BROKEN]}" '
             f'errors="{count[REFUSED] + count[UNREADABLE]}">']
    for verdict in all_of_them:
        case = f'  <testcase classname="capture" name={quoteattr(name_of(verdict.name))}'
        if verdict.status == DONE:
            lines.append(case + "/>")
            continue
        kind = "failure" if verdict.status == BROKEN else "error"
        told = f"    <{kind} message={quoteattr(verdict.said())}>{escape(verdict.line())}</{kind}>"
        lines += [case + ">", told, "  </testcase>"]
    return "\n".join(lines + ["</testsuite>", ""])
