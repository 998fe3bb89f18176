#!/usr/bin/env python3
"""The documents are held to what they speak of: what they name is there, what they count is so, README.md's install line is
enough for what the gate runs, and the sentences can be read. docs/TESTING.md, "Documents", has the list. Documents made wrong
on purpose (faults.py) are then each told of.

    tests/documents/run.py            says what is wrong
    tests/documents/run.py --write    puts counts and the index of decisions in, then says what is wrong"""
import functools
import glob
import os
import re
import sys

sys.dont_write_bytecode = True
import counts
import faults
import install
import names
import prose
from names import ROOT, read

# Pages that say what is so; those of requests say what a landing moved, at its time.
PAGES = ["README.md", "CONTRIBUTING.md", "CHANGELOG.md", "samples/README.md", "tests/README.md", "docs/requests/README.md"]

QUOTED = re.compile(r"`([^`\n]+)`")
CODE = re.compile(r"^    .*$", re.M)
PATH = re.compile(r"(?<![\w/.<-])((?:%s)/[\w./*{},-]*[\w*}/])" % "|".join(map(re.escape, names.FOLDERS)))
PAGE = re.compile(r"(?<![\w/.])([A-Z]+\.md)\b")
INSIDE = re.compile(r"(\w+)/((?:specs|proofs|src|must-fail)(?:/[\w./{},*-]+)?)")
CITED = re.compile(r"DECISIONS\.md, ((?:[RCD]\d+(?:, | and )?)+)")
DECISION = re.compile(r"(?<![\w-])([RCD]\d+)(?![\w-])")
SECTIONS = re.compile(r"(?:docs/)?([A-Z]+)\.md, sections? ([\d.]*\d)(?: (?:and|to) ([\d.]*\d))?")
HEADED = re.compile(r'(?:docs/)?([A-Z]+)\.md, "([^"]+)"')
THEOREM = re.compile(r"^\| .* \| (`[\w-]+`(?:, `[\w-]+`)*) \| (`?[\w/]+`?) \|$", re.M)

IMPOSTOR = re.compile(r"\|(?: `(?P<crate>\w+)` \| .* \(`(?P<label>\w+)`\)| .* \| `(?P<edit>\w+/\w+)`) \| .* \|")

# The fact at which an edit fails, which the check names and no file has to: tests/impostors holds it to what is said.
FACT = re.compile(r"^(\|.* \| `[^`|]+`), `[^`|]+` \|$", re.M)

# A language, not a decision; a law whose name stands for many.
NOT_DECISIONS = {"C99"}
NOT_NAMES = {"CRATE-PATH-settles", "ruleN", "rule-N"}


# They set what was beside what is, and so name things that are gone.
BEFORE_AND_NOW = ("docs/PORT.md", "docs/DESIGN-PASS.md")


def documents():
    """Every page by its name."""
    pages = PAGES + [os.path.relpath(path, ROOT) for path in glob.glob(os.path.join(ROOT, "docs", "*.md")) if names.is_landed(path)]
    return {page: read(page) for page in sorted(set(pages).difference(BEFORE_AND_NOW))}


def of_requests():
    return {os.path.relpath(path, ROOT): read(path) for path in glob.glob(os.path.join(ROOT, "docs", "requests", "K*.md"))}


# ---- names

def commands(text):
    """What stands in code, in a line or in a block."""
    return QUOTED.findall(text) + CODE.findall(text)


def wrong_paths(page, text):
    for path in PATH.findall(text):
        if not names.exists(path) and not names.exists(os.path.join(os.path.dirname(page), path)):
            yield "there is no " + path
    for name in PAGE.findall(text):
        if not any(os.path.exists(os.path.join(ROOT, folder, name)) for folder in ("", "docs", "docs/requests")):
            yield "there is no page " + name
    for crate, place in INSIDE.findall(text.replace("crates/", "")):
        if crate in names.crates() and not names.exists(os.path.join("crates", crate, place.rstrip("./"))):
            yield "crate %s has no %s" % (crate, place)


def wrong_commands(text):
    for said in commands(text):
        for test in re.findall(r"\btests/run((?: [a-z]+)+)", said):
            yield from ("tests/run has no %s" % name for name in test.split() if name not in names.tests() | names.GROUPS)
        for verb, crates in re.findall(r"\b(rt ci|rt must-fail|tools/build)((?: [a-z_]+)+)", said):
            yield from ("%s of %s, which is no crate" % (verb, name) for name in crates.split() if name not in names.crates())
        for verb in re.findall(r"\brt (check|fmt|lib|tidy|try) [a-z_]", said):
            yield "rt %s takes no name, and works in a crate's folder" % verb
        for verb in re.findall(r"\brt (dev|staticlib)\b", said):
            yield "rt has no " + verb


def wrong_word(word):
    """What is wrong with one word in code, if anything."""
    if word in NOT_NAMES or re.fullmatch(r"t[A-Z]\w*|[A-Z]|0x\w+|\d.*", word):
        return None
    if "::" in word:
        crate, *rest = word.split("::")
        if crate in names.KIT or crate not in names.crates() and crate[:1].isupper():
            return None
        known = names.items(crate) if crate in names.crates() else ()
        return None if all(part in known for part in rest) else "there is no " + word
    if re.fullmatch(r"[a-z]\w*(-[\w′]+)+", word):
        return None if word in names.all_laws() or word in names.programs() else "no law has the name " + word
    if re.fullmatch(r"[a-z_]+/(?!specs|proofs|src)[a-z0-9_]+", word) and word.split("/")[0] in names.crates():
        return None if word in names.edits() else "there is no edit " + word
    if re.fullmatch(r"\w+", word):
        return None if word in names.words() or word in names.all_laws() else "nothing has the name " + word
    return None


def wrong_words(page, text):
    for said in QUOTED.findall(FACT.sub(r"\1 |", text) if page == "docs/IMPOSTORS.md" else text):
        wrong = wrong_word(said)
        if wrong:
            yield wrong


def wrong_theorems(text):
    """The laws of a table of promises stand in the file beside them."""
    for theorems, file in THEOREM.findall(text):
        place = file.strip("`")
        path = os.path.join(ROOT, (place if "/" in place else "crates/demands/proofs/" + place) + ".antt")
        if not os.path.exists(path):
            yield "there is no file %s of theorems" % place
            continue
        for theorem in QUOTED.findall(theorems):
            if theorem not in NOT_NAMES and theorem not in names.laws(path):
                yield "%s has no %s" % (place, theorem)


def wrong_rows(text):
    """Every edit has one row among the impostors, and every row an edit."""
    rows = [row["edit"] or "%s/%s" % (row["crate"], row["label"]) for row in map(IMPOSTOR.fullmatch, text.splitlines()) if row]
    yield from ("no row has the edit " + edit for edit in sorted(names.edits() - set(rows)))
    yield from ("a row has %s, which is no edit" % edit for edit in sorted(set(rows) - names.edits()))
    yield from ("two rows have the edit " + edit for edit in sorted(set(edit for edit in rows if rows.count(edit) > 1)))


def left_out(pages):
    """Every crate has its row in docs/ARCHITECTURE.md, and every test in both pages on tests."""
    table = pages["docs/ARCHITECTURE.md"].split("\n## Crates\n")[1].split("\n##")[0]
    rows = {name for line in table.splitlines() if line.startswith("| `") for name in QUOTED.findall(line.split(" | ")[0])}
    yield from (("docs/ARCHITECTURE.md", "no row has the crate " + crate) for crate in sorted(set(names.crates()) - rows))
    for test in sorted(names.tests()):
        if not re.search(r"`tests/run (?:[a-z]+ )*%s\b" % test, pages["docs/TESTING.md"]):
            yield "docs/TESTING.md", "it leaves out tests/run " + test
        if "| `%s` |" % test not in pages["tests/README.md"]:
            yield "tests/README.md", "no row has the test " + test


def headings(pages, page):
    text = pages.get("docs/%s.md" % page, pages.get(page + ".md", ""))
    return re.findall(r"^#+ (.*)$", text, re.M)


def wrong_sections(pages, text):
    for page, *numbers in SECTIONS.findall(text):
        for number in filter(None, numbers):
            if not any(re.match(re.escape(number) + r"[. ]", line) for line in headings(pages, page)):
                yield "%s.md has no section %s" % (page, number)
    for page, name in HEADED.findall(text):
        if name not in headings(pages, page):
            yield "%s.md has no section \"%s\"" % (page, name)


# ---- decisions

def decided(pages):
    return re.findall(r"^\*\*([RCD]\d+)\. ", pages["docs/DECISIONS.md"], re.M)


def wrong_decisions(pages, text):
    there = set(decided(pages)) | NOT_DECISIONS
    yield from ("there is no decision " + number for number in sorted(set(DECISION.findall(text)) - there))


def index(text):
    """The index of the second part, made from its headings and the first sentences of its decisions."""
    lines = []
    for part in text.split("\n# Second part")[1].split("\n## ")[1:]:
        lines.append("- **%s**" % part.split("\n", 1)[0])
        lines += ["  - %s %s" % (number, title.rstrip(".,")) for number, title in re.findall(r"^\*\*([CD]\d+)\. (.*?)\*\*", part, re.M)]
    return "\n".join(lines) + "\n"


INDEX = re.compile(r"(?<=\n\n)- \*\*The definitions.*?\n(?=\n## )", re.S)


def wrong_index(text):
    found = INDEX.search(text)
    if not found or found.group(0) != index(text):
        yield "the index is not that of the decisions; tests/documents/run.py --write makes it"
    for number in sorted(number for number in set(decided({"docs/DECISIONS.md": text})) if text.count("\n**%s. " % number) > 1):
        yield "two decisions have the number " + number


@functools.cache
def cited():
    """Decisions and pages that sources name: (file, number or page)."""
    found = set()
    for path in (path for folder in names.FOLDERS for path in names.files(folder) if names.is_source(path)):
        with open(path, encoding="utf-8", errors="replace") as file:
            text = file.read()
        for numbers in CITED.findall(text):
            found.update((os.path.relpath(path, ROOT), number) for number in DECISION.findall(numbers))
        found.update((os.path.relpath(path, ROOT), page) for page in re.findall(r"\bdocs/[\w/]+\.md\b", text))
    return found


def wrong_citations(pages):
    there = set(decided(pages))
    for path, name in sorted(cited()):
        if not (os.path.exists(os.path.join(ROOT, name)) if name.endswith(".md") else name in there):
            yield path, "it names %s, which is not there" % name


# ---- counts

@functools.cache
def counted(count):
    return str(count())


def wrong_counts(pages):
    for page, pattern, count in counts.COUNTS:
        found = re.search(pattern, pages[page])
        if not found:
            yield page, "a count is missing: " + pattern
        elif found["n"] != counted(count):
            yield page, "it says %s, counted are %s: %s" % (found["n"], counted(count), found.group(0).strip())


def write():
    for page, pattern, count in counts.COUNTS:
        text = read(page)
        found = re.search(pattern, text)
        if found:
            save(page, text[:found.start("n")] + counted(count) + text[found.end("n"):])
    text = read("docs/DECISIONS.md")
    save("docs/DECISIONS.md", INDEX.sub(lambda _: index(text), text))


def save(page, text):
    with open(os.path.join(ROOT, page), "w", encoding="utf-8") as file:
        file.write(text)


# ---- all of it

def wrong(pages, requests):
    """(page, what is wrong with it)"""
    for page, text in pages.items():
        for told in (wrong_paths(page, text), wrong_commands(text), wrong_words(page, text), wrong_sections(pages, text), wrong_decisions(pages, text), prose.wrong(page, text)):
            yield from ((page, line) for line in told)
    for page, text in requests.items():
        yield from ((page, line) for line in wrong_decisions(pages, text))
    yield from (("docs/PROMISES.md", line) for line in wrong_theorems(pages["docs/PROMISES.md"]))
    yield from (("docs/IMPOSTORS.md", line) for line in wrong_rows(pages["docs/IMPOSTORS.md"]))
    yield from (("docs/DECISIONS.md", line) for line in wrong_index(pages["docs/DECISIONS.md"]))
    yield from (("README.md", line) for line in install.wrong(pages["README.md"]))
    yield from left_out(pages)
    yield from wrong_citations(pages)
    yield from wrong_counts(pages)


def main():
    if sys.argv[1:] == ["--write"]:
        write()
    pages, requests = documents(), of_requests()
    found = list(wrong(pages, requests))
    made = [] if found else list(faults.made(pages))
    unnoticed = [name for name, said, page, text in made if not any(said in line for _, line in wrong({**pages, page: text}, {}))]
    for page, line in found:
        print("%s: %s" % (page, line))
    for name in unnoticed:
        print("not noticed: " + name)
    print("%d documents, %d counts, %d wrong; %d faults made on purpose, %d not noticed"
          % (len(pages) + len(requests), len(counts.COUNTS), len(found), len(made), len(unnoticed)))
    sys.exit(1 if found or unnoticed else 0)


if __name__ == "__main__":
    main()
