#!/usr/bin/env python3
"""Holds docs/RULES.md to what it speaks of: what it says of its examples to the report program, and the definitions that it
names to crates/reading/specs, where each public one has to be named by the page, and each worked case to
crates/reading/proofs/Cases."""
import glob
import os
import re
import sys

HERE = os.path.dirname(os.path.abspath(__file__))
ROOT = os.path.join(HERE, "..", "..")
sys.path.insert(0, os.path.join(HERE, ".."))
import captures
from captures import (A10, LOW, SLEEPY, USUAL, bank, broken_lines, capture, cas_latency, clean_lines, column, is_interleaved,
                      mode_word)
from running import from_file

NAMES = ["tRCD", "tRP", "tRAS", "tRC", "tRRD", "tWR", "tWTR", "tRFC", "tMRD", "tREFI", "tXP", "tXSR"]

# In a sentence, or in a row of a table.
EXAMPLE = re.compile(r"`([^`]*@\d+)` (?:is |\| )?(?:(clean)|breaks rule (\d+)|refusal (\d+), place (\d+))")

# The command, what it names in this order, whether CKE is low, and its cycle.
EVENT = re.compile(r"([A-Z]+(?: [A-Z]+)*)(?: register ([01]{2}))?(?: bank (\d))?(?: row (\d+))?(?: column (\d+))?"
                   r"(?: 0x([0-9a-f]+))?( auto| all)?( low)? @(\d+)")

# At the margin, or in a module, where a line without one of the two words is a field of a record.
DEFINED = re.compile(r"^(?:(?:abbrev |unfoldable )?pub (?:data |record )?| +(?:abbrev |unfoldable )pub )([^\s:]+) ", re.M)
CASES = re.compile(r"^\| [^|]* \| (\w+) \| (`[a-z_-]+`.*) \|$", re.M)


def read(*path):
    with open(os.path.join(ROOT, *path), encoding="utf-8") as file:
        return file.read()


def event(text):
    name, register, b, row, c, value, a10, low, cycle = EVENT.fullmatch(text).groups(default="")
    pins = getattr(captures, name.replace(" ", "_")) | bank(int(register or "0", 2)) | bank(int(b or 0))
    pins |= int(row or 0) | column(int(c or 0)) | int(value or "0", 16) | (A10 if a10 else 0) | (LOW if low else 0)
    return int(cycle), pins


def settings_with(changes, events):
    """Sixteen where tXP or tXSR is named or CKE is low."""
    sleeps = any(pins & LOW for _, pins in events) or any(name.startswith("tX") for name in changes)
    settings = list(SLEEPY if sleeps else USUAL)
    for name, value in changes.items():
        if name == "BL":
            settings[3] = mode_word(value, is_interleaved(settings[3]), cas_latency(settings[3]))
        else:
            settings[4 + NAMES.index(name)] = value
    return settings


def example(text):
    """Its events, settings and edition."""
    named, _, list_ = text.rpartition(": ")
    changes = {name: int(value) for name, value in (change.split() for change in named.split(", ") if change)}
    edition = changes.pop("edition", 0)
    events = [event(words) for words in list_.split(", ")]
    return events, settings_with(changes, events), edition


def said_lines(events, clean, rule, number, place):
    """A rule is broken by the last event."""
    if clean:
        return clean_lines(events)
    return broken_lines(events, rule, len(events) - 1) if rule else [f"refused {number} place {place}"]


def examples(page):
    """Each example with what the report has to print."""
    for text, *said in EXAMPLE.findall(page):
        events, settings, edition = example(text)
        data = capture(events, settings, edition=edition)
        yield text, data, "".join(line + "\n" for line in said_lines(events, *said))


def definitions():
    """Every public definition of the reading as File.name."""
    for path in glob.glob(os.path.join(ROOT, "crates", "reading", "specs", "*.antt")):
        file = os.path.splitext(os.path.basename(path))[0]
        for name in DEFINED.findall(read(path)):
            if name != "mod":
                yield f"{file}.{name}"


def misnamed(page):
    there = set(definitions())
    files = {name.split(".")[0] for name in there}
    named = {name for name in re.findall(r"`(\w+\.[\w-]+)`", page) if name.split(".")[0] in files}
    yield from (f"{name} is named and not defined" for name in sorted(named - there))
    yield from (f"{name} is defined and not named" for name in sorted(there - named))
    for file, statements in CASES.findall(page):
        text = read("crates", "reading", "proofs", "Cases", file + ".antt")
        for name in re.findall("`([^`]+)`", statements):
            if not re.search(rf"^ *(?:\w+ )*{name} :", text, re.M):
                yield f"Cases/{file} has no {name}"
    decisions = read("docs", "DECISIONS.md")
    for number in sorted(set(re.findall(r"\bR\d+\b", page))):
        if f"**{number}. " not in decisions:
            yield f"docs/DECISIONS.md has no {number}"


def main():
    page = read("docs", "RULES.md")
    wrong = list(misnamed(page))
    tried = list(examples(page))
    for text, data, expected in tried:
        said = from_file("report", data).stdout.decode()
        if said != expected:
            wrong.append(f"{text}: {said!r}, not {expected!r}")
    # An example that the pattern misses would not be tried.
    written = len(re.findall(r"@\d+` (?:is|breaks|\|)", page))
    if not tried or written != len(tried):
        wrong.append(f"{written} examples are written and {len(tried)} were tried")
    for line in wrong:
        print("WRONG", line)
    print(f"rules: {len(tried)} examples, {len(set(definitions()))} definitions, {len(wrong)} wrong")
    return 1 if wrong else 0


sys.exit(main())
