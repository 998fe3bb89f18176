"""What stands in a document and can be counted: where it stands, and what it is. A pattern has the group `n` around the
number, or around several."""
import functools
import glob
import importlib.util
import os
import re

import names
from names import ROOT, files, read


def with_commas(number):
    return "{:,}".format(number)


def lines(*paths):
    return sum(open(path, encoding="utf-8").read().count("\n") for path in paths)


def sizes():
    """Lines of code, of definitions and of proofs."""
    definitions = [path for path in files("crates", ".antt") if "/specs/" in path]
    proofs = [path for path in files("crates", ".antt") if "/proofs/" in path]
    return ", ".join(with_commas(lines(*paths)) for paths in (files("crates", ".rt"), definitions, proofs))


def long_lines():
    proofs = [path for path in files("crates", ".antt") if "/proofs/" in path]
    return sum(len(line) > 200 for path in proofs for line in read(path).splitlines() if not line.startswith("use "))


@functools.cache
def contracts():
    """tests/contracts, which knows the public functions that have a law."""
    spec = importlib.util.spec_from_file_location("contracts", os.path.join(ROOT, "tests", "contracts", "run.py"))
    module = importlib.util.module_from_spec(spec)
    spec.loader.exec_module(module)
    return module


def public_functions():
    """Each with the text of its source from its name on."""
    for source in contracts().sources():
        text = contracts().QUIET.sub("", source[-1])
        for function in contracts().functions(*source):
            yield function, text[re.search(r"\bpub\b[^;{}]*\bfn\s+%s\b" % function.path[-1], text).end():]


def functions():
    return sum(1 for _ in public_functions())


def asking():
    """Those with a `requires` before their body; a clause may have a name, and be on several lines."""
    heads = (re.split(r"\n\s*\{\s*\n|\{\n", CLAUSE.sub(r"\1 {", text), maxsplit=1)[0] for _, text in public_functions())
    return sum("requires {" in head for head in heads)


CLAUSE = re.compile(r"\b(requires|ensures)(?: \w+)? \{\n?")


def changes():
    return len(re.findall(r"^\[\w+\] ", read("tests", "mutants", "table"), re.M))


def unchanging():
    return len(re.findall(r"^same:", read("tests", "mutants", "table"), re.M))


def samples():
    return len(glob.glob(os.path.join(ROOT, "samples", "*.capture")))


def edits():
    return len(names.edits())


def gate():
    """Every crate, and every edit."""
    return len(names.crates()) + edits()


def examples():
    return re.findall(r"`([^`]*@\d+)` (?:is |\| )?(?:clean|breaks rule \d+|refusal \d+, place \d+)", read("docs", "RULES.md"))


def sleeping_examples():
    return sum(" low @" in text or "tXP " in text or "tXSR " in text for text in examples())


def newer_examples():
    return sum(text.startswith("edition 1") for text in examples())


def second_tests():
    return sum(len(re.findall(r"^\s*#\[test\]", read(path), re.M)) for path in files("tests/second", ".rs"))


def version():
    """The version, from the file in which tools/archive reads it."""
    place = re.search(r"^version=.* (crates/\S+)\)$", read("tools", "archive"), re.M).group(1)
    return ".".join(re.search(r"numbered (\d+) (\d+) (\d+)", read(place)).groups())


def last_reading():
    return max(int(number) for number in re.findall(r"^\*\*R(\d+)\. ", read("docs", "DECISIONS.md"), re.M))


def parts():
    """The rows of the table of real parts."""
    return lines(os.path.join(ROOT, "tests", "data", "part-settings.csv")) - 1


def published_rows():
    return sum(lines(path) - 1 for path in files("tests/data/burst-tables", ".csv"))


def inputs(build):
    """How many the gate's differential run has."""
    return lambda: with_commas(int(re.search(r"tests/differential (\d+) \d+%s(?: |$)" % build, read("tests", "run"), re.M).group(1)))


def events_of(sample):
    with open(os.path.join(ROOT, "samples", sample), "rb") as file:
        return int.from_bytes(file.read(16)[12:], "little")


def landed():
    """The customer requests that have a page, runs of three or more as one."""
    numbers = sorted(int(re.search(r"K(\d+)", path).group(1)) for path in glob.glob(os.path.join(ROOT, "docs", "requests", "K*.md")))
    runs = []
    for number in numbers:
        if runs and number == runs[-1][-1] + 1:
            runs[-1].append(number)
        else:
            runs.append([number])
    told = [text for run in runs for text in (["K%d to K%d" % (run[0], run[-1])] if len(run) > 2 else ["K%d" % number for number in run])]
    return " and ".join(filter(None, [", ".join(told[:-1]), told[-1]]))


def minutes():
    """The gate's minutes, as docs/STATUS.md has them."""
    return re.search(r"in (\d+) minutes \d+ seconds", read("docs", "STATUS.md")).group(1)


def of_samples():
    """What tools/judge-samples proves: its programs and all that they rest on."""
    programs = re.search(r"^tools/build ([\w ]+) >&2$", read("tools", "judge-samples"), re.M).group(1).split()
    return set().union(*map(names.rests_on, programs))


def rests(crate):
    return lambda: len(names.rests_on(crate))


COUNTS = [
    ("README.md", r"of the (?P<n>\d+) captures in `samples/`", samples),
    ("README.md", r"\| (?P<n>\d+) crates, then \d+ samples \|", lambda: len(of_samples())),
    ("README.md", r"crates, then (?P<n>\d+) samples \|", samples),
    ("README.md", r"`tools/build listing` \| (?P<n>\d+) crates? more", lambda: len(names.rests_on("listing") - of_samples())),
    ("README.md", r"the (?P<n>\d+) libraries of the archive", rests("morgazell")),
    ("README.md", r"\| (?P<n>\d+) minutes on two cores \(docs/STATUS.md\)", minutes),
    ("CONTRIBUTING.md", r"It proves (?P<n>\d+) crates, builds the report", lambda: len(of_samples())),
    ("CHANGELOG.md", r"\n## (?P<n>\d+\.\d+\.\d+)\n", version),
    ("docs/PROMISES.md", r"Between the crates (?P<n>\d+) public functions ask", asking),
    ("docs/PROMISES.md", r"a law for each of the (?P<n>\d+) public functions", functions),
    ("docs/PROMISES.md", r"with tWTR 1 typed for 2 it is clean, all (?P<n>\d+) events judged", lambda: events_of("tWTR.capture")),
    ("docs/RULES.md", r"R1 to R(?P<n>\d+); such a number", last_reading),
    ("docs/DECISIONS.md", r"\(R1 to R(?P<n>\d+)\)", last_reading),
    ("docs/DECISIONS.md", r"Of the (?P<n>\d+) rows of `tests/data/part-settings.csv`", parts),
    ("docs/STATUS.md", r"The landed requests are (?P<n>[^(]*) \(", landed),
    ("docs/STATUS.md", r"\| (?P<n>\d+) passed, 0 failed", gate),
    ("docs/STATUS.md", r"lines of code, definitions, proofs \| (?P<n>[\d, ]+) \|", sizes),
    ("docs/STATUS.md", r"law that its contract settles its answer \| (?P<n>\d+) \|", functions),
    ("docs/STATUS.md", r"edits that must fail \| (?P<n>\d+) \|", edits),
    ("docs/STATUS.md", r"definitions that are tried \| (?P<n>\d+), of which", changes),
    ("docs/STATUS.md", r"of which (?P<n>\d+) alter no answer", unchanging),
    ("docs/STATUS.md", r"samples \| (?P<n>\d+) \|", samples),
    ("docs/STATUS.md", r"lines of proof over 200 characters, imports apart \| (?P<n>\d+) \|", long_lines),
    ("docs/TESTING.md", r"one place at a time, (?P<n>\d+) changes in all", changes),
    ("docs/TESTING.md", r"(?P<n>\d+) of the changes alter no answer", unchanging),
    ("docs/TESTING.md", r"its (?P<n>\d+) examples, \d+ of them of sixteen", lambda: len(examples())),
    ("docs/TESTING.md", r"examples, (?P<n>\d+) of them of sixteen", sleeping_examples),
    ("docs/TESTING.md", r"and (?P<n>\d+) of edition 1, are held to the report", newer_examples),
    ("docs/TESTING.md", r"its (?P<n>\d+) tests: cases", second_tests),
    ("docs/TESTING.md", r"requests, (?P<n>\d+) published burst rows", published_rows),
    ("docs/TESTING.md", r"each of the (?P<n>\d+) rows asked of both builds", published_rows),
    ("docs/TESTING.md", r"\| (?P<n>[\d,]+) generated inputs against the second", inputs("")),
    ("docs/TESTING.md", r"; then (?P<n>[\d,]+) of the smallest build", inputs(" smallest")),
]
