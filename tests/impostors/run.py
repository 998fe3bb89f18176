#!/usr/bin/env python3
"""The tables of docs/IMPOSTORS.md are held to what the check said of each wrong program: every edit of
crates/*/must-fail has one row, and the row's last column is where the first error stands that rt prints of it. An edit that
is no code, or is refused only because a proof file names what it took away (docs/DECISIONS.md, C14), says nothing about a
contract and is wrong too. What rt said is read in target/ci, which .ci/run leaves, where that is of these very files; else
`rt must-fail` is asked, which tries again only what has changed.

    python3 tests/impostors/run.py [CRATE...]             all crates, or these
    python3 tests/impostors/run.py --write [CRATE...]     puts into the rows what was said, then says what is wrong"""
import collections
import glob
import os
import re
import subprocess
import sys

ROOT = os.path.join(os.path.dirname(os.path.abspath(__file__)), "..", "..")

# A row names its edit as CRATE/EDIT, or the crate first and the edit behind the words.
ROW = re.compile(r"\|(?: `(?P<crate>\w+)` \| .* \(`(?P<label>\w+)`\)| .* \| `(?P<edit>\w+/\w+)`) \| (?P<first>.*) \|")
NO_ROW = re.compile(r"[^|]|\|-|.* first error \||$")

# What rt says of an edit that the check refuses; behind it stand the place of the first error and the fact that does not follow.
SAID = re.compile(r"^rt: must-fail (\w+/[\w.-]+)\.edit: (.*)$", re.M)
REFUSED = re.compile(r"refused, as it must be(?: \((?P<only>[^)]*(?:\([^)]*\))?[^)]*)\))?(?:: (?P<first>.*))?")
PLACE = re.compile(r"(?:note: )?(?:\./)?(?P<file>(?:src|proofs)/[\w./+-]+):(?P<line>\d+):\d+: "
                   r"(?:error: `(?P<fact>[^`]+)`: |it is not proved that .*? \(`(?P<goal>[^`]+)`\))")

# Said of a proof that names a part which the code does not have.
UNFIT = "only because a proof file names what the edit took away"


def read(path):
    with open(path, encoding="utf-8") as file:
        return file.read()


def edits(crates):
    paths = glob.glob(os.path.join(ROOT, "crates", "*", "must-fail", "*.edit"))
    for crate, label in sorted((path.split(os.sep)[-3], path.split(os.sep)[-1][: -len(".edit")]) for path in paths):
        if not crates or crate in crates:
            yield crate + "/" + label


def rows(crates):
    """The last column of each row, by the edit that the row names."""
    text = read(os.path.join(ROOT, "docs", "IMPOSTORS.md")).split("\n## ", 1)[1]
    table = collections.defaultdict(list)
    for line in text.splitlines():
        row = ROW.fullmatch(line)
        edit = row and (row["edit"] or row["crate"] + "/" + row["label"])
        if row and (not crates or edit.split("/")[0] in crates):
            table[edit].append(row["first"])
        elif not row and not NO_ROW.match(line):
            table[line].append("")
    return table


def said(crates):
    """What rt says of each edit."""
    kept, edited = os.path.join(ROOT, "target", "ci"), glob.glob(os.path.join(ROOT, "crates", "*", "must-fail", "*.edit"))
    is_kept = os.path.exists(kept) and all(os.path.getmtime(path) < os.path.getmtime(kept) for path in edited)
    if is_kept and subprocess.run([os.path.join(ROOT, "tools", "build"), "--is-proved"]).returncode == 0:
        return dict(SAID.findall(read(kept)))
    told = subprocess.run(["rt", "must-fail", *crates], cwd=ROOT, stdin=subprocess.DEVNULL, stdout=subprocess.PIPE, text=True)
    return dict(SAID.findall(told.stdout))


def function_at(path, line):
    """The function whose text begins at this line of a source, or else the one that the line stands in."""
    lines = read(path).split("\n")
    if re.match(r"\s*(?:#\[|(pub )?(extern \"C\" )?fn\b)", lines[line - 1]):
        return re.search(r"\bfn (\w+)", "\n".join(lines[line - 1:])).group(1)
    return re.findall(r"\bfn (\w+)", "\n".join(lines[:line]))[-1]


def place(crate, file, line):
    """The function that is proved in a file, or whose code stands there, or the file of a law."""
    if file.startswith("src/"):
        return function_at(os.path.join(ROOT, "crates", crate, file), line)
    name = file[len("proofs/"):]
    return name.split("/")[-2] if re.search(r"/(?:Proof|Answers|Invariants)\.antt$", name) else name[: -len(".antt")]


def first_error(edit, text):
    """`function or file`, `fact` of the first error, and what is wrong with what rt says."""
    refused = REFUSED.fullmatch(text)
    if not refused:
        return None, "it is not refused: " + text
    if UNFIT in text:
        return None, "the stored proof has other parts than the code: " + text
    found = PLACE.match(refused["first"] or "")
    if not found:
        return None, "no error in what rt says: " + text
    return "`%s`, `%s`" % (place(edit.split("/")[0], found["file"], int(found["line"])), found["fact"] or found["goal"]), None


def wrong_with(edit, told, text):
    """What is wrong with an edit, its row or what rt says, if anything."""
    if len(told) != 1:
        return "%d rows in docs/IMPOSTORS.md" % len(told)
    if text is None:
        return "rt says nothing of it"
    found, wrong = first_error(edit, text)
    if wrong:
        return wrong[:400]
    return None if told[0] == found else "its row says %s, rt %s" % (told[0], found)


def write(crates, texts):
    """Each row's last column as it is said."""
    path = os.path.join(ROOT, "docs", "IMPOSTORS.md")
    lines = []
    for line in read(path).split("\n"):
        row = ROW.fullmatch(line)
        edit = row and (row["edit"] or row["crate"] + "/" + row["label"])
        found = first_error(edit, texts[edit])[0] if row and edit in texts else None
        lines.append(line[:row.start("first")] + found + " |" if found else line)
    with open(path, "w", encoding="utf-8") as file:
        file.write("\n".join(lines))


def main():
    crates = [word for word in sys.argv[1:] if word != "--write"]
    texts = said(crates)
    if "--write" in sys.argv[1:]:
        write(crates, texts)
    known, table = list(edits(crates)), rows(crates)
    faults = [(edit, wrong_with(edit, table[edit], texts.get(edit))) for edit in known]
    faults += [(edit, "a row of no edit") for edit in table if edit not in known]
    for edit, wrong in faults:
        if wrong:
            print("%s: %s" % (edit, wrong))
    count = sum(1 for _, wrong in faults if wrong)
    print("%d edits that must fail, %d wrong" % (len(known), count))
    sys.exit(1 if count else 0)


if __name__ == "__main__":
    main()
