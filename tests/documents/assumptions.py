#!/usr/bin/env python3
"""The tables of "What is assumed" in docs/PROMISES.md are held to what the check says of each crate (`--list-axioms`: how many
functions of C its verdict rests on, and which), and README.md's line of the kit to `rt version`. A library declares none: what
`rt ci` said of it is read in target/ci, which .ci/run leaves, and one that an earlier run proved is only named there, since
`rt ci` refuses those that do. A program and the archive are checked once more, over the libraries below them as they are there;
what that says is kept in target/log, until something changes.

    tests/documents/assumptions.py            says what is wrong
    tests/documents/assumptions.py --write    puts into the first table what the check says, then says what is wrong"""
import concurrent.futures
import functools
import os
import re
import subprocess
import sys

sys.dont_write_bytecode = True
import names
from names import ROOT, read

ROW = re.compile(r"^\| `(\w+)` \| (\d+) \| (.*) \|$", re.M)
REST = re.compile(r"^\| each library, the archive for C among them \| 0 \| none \|$", re.M)
REACHED = re.compile(r"^ +([\w:]+) +reached$", re.M)
WORDS = re.compile(r"^\| `([\w:]+)` \| (.+) \|$", re.M)


def printed(crate):
    """How many assumptions the check counted in a crate, and their names; None where no check ended well."""
    log = of_gate(crate) if is_library(crate) else checked(crate)
    verdict = re.search(r"^logic=proved functions=\d+(?P<foreign> foreign=\S+)?(?: axioms=(?P<count>\d+))? .*$", log, re.M)
    if not verdict or verdict["foreign"]:
        return None
    return int(verdict["count"] or 0), set(REACHED.findall(log))


def is_library(crate):
    return os.path.exists(os.path.join(ROOT, "crates", crate, "src", "lib.rt")) and not is_static(crate)


def is_static(crate):
    return re.search(r"^%s staticlib *:" % crate, read("crates.txt"), re.M)


def build(*words):
    return subprocess.run([os.path.join(ROOT, "tools", "build"), *words], capture_output=True, text=True)


@functools.cache
def gate():
    path = os.path.join(ROOT, "target", "ci")
    return read(path) if os.path.exists(path) and build("--is-proved").returncode == 0 else ""


def of_gate(crate):
    """What `rt ci` said of a library: its own check, or that an earlier run proved it."""
    if re.search(r"^rt: %s is kept: " % crate, gate(), re.M):
        return "logic=proved functions=0 by an earlier run"
    section = re.search(r"^== %s\n(.*?)^rt: %s proved$" % (crate, crate), gate(), re.M | re.S)
    return section.group(1) if section else checked(crate)


def checked(crate):
    """What a check of a crate says now; it is asked again only where something has changed."""
    path, sum = os.path.join(ROOT, "target", "log", crate + ".say"), build("--sum").stdout
    if os.path.exists(path) and read(path).startswith(sum):
        return read(path)
    kit = os.path.dirname(subprocess.run(["rt", "doc"], capture_output=True, text=True, check=True).stdout.strip())
    words = [os.path.join(kit, "bin", "rattle"), "check", *build("--words", crate).stdout.split(), "--list-axioms"]
    said = subprocess.run(words, cwd=os.path.join(ROOT, "crates", crate), stdout=subprocess.PIPE, stderr=subprocess.STDOUT, text=True)
    os.makedirs(os.path.dirname(path), exist_ok=True)
    with open(path, "w", encoding="utf-8") as file:
        file.write(sum + said.stdout)
    return said.stdout


@functools.cache
def found_of_all():
    """What the check says of each crate, two at a time."""
    with concurrent.futures.ThreadPoolExecutor(2) as pool:
        return dict(zip(names.crates(), pool.map(printed, names.crates())))


def row(crate, found):
    return "| `%s` | %d | %s |" % (crate, found[0], ", ".join("`%s`" % name for name in sorted(found[1])))


def wrong_crates(section):
    rows = {crate: (int(count), set(re.findall("`([^`]+)`", which))) for crate, count, which in ROW.findall(section)}
    if not REST.search(section):
        yield "the row of the libraries is missing"
    for crate, found in found_of_all().items():
        if found is None:
            yield "%s: no check of it ended well; run rt check in crates/%s" % (crate, crate)
        elif found[0] != len(found[1]) or rows.get(crate, (0, set())) != found:
            yield "%s: the check counted %s" % (crate, row(crate, found))
    yield from ("%s is no crate" % crate for crate in rows if crate not in names.crates())
    used = {name for _, which in rows.values() for name in which}
    told = {name for name, words in WORDS.findall(section) if "::" in name}
    yield from ("%s is not said in words" % name for name in sorted(used - told))
    yield from ("%s is assumed by no crate" % name for name in sorted(told - used))


def write():
    """Each row that is there, as the check says; a row more for each crate that has none and assumes something."""
    path = os.path.join(ROOT, "docs", "PROMISES.md")
    text = read("docs", "PROMISES.md")
    head, behind = text.split("\n## What is assumed\n")
    section, rest = behind.split("\n## ", 1)
    rows = [crate for crate, _, _ in ROW.findall(section)]
    rows += [crate for crate, found in found_of_all().items() if found and found[0] and crate not in rows]
    lines = [row(crate, found_of_all()[crate]) for crate in rows if found_of_all().get(crate)]
    line = REST.search(section).group(0)
    section = section.replace(line, line + "\n" + "\n".join(lines)) if not ROW.search(section) else re.sub(
        r"(?:^\| `\w+` \| \d+ \| .* \|\n)+", lambda _: "\n".join(lines) + "\n", section, count=1, flags=re.M)
    with open(path, "w", encoding="utf-8") as file:
        file.write(head + "\n## What is assumed\n" + section + "\n## " + rest)


def wrong_kit(readme):
    kit = subprocess.run(["rt", "version"], capture_output=True, text=True, check=True).stdout.strip()
    if "`rt version` says `%s`" % kit not in readme:
        yield "README.md names another kit than this one, %s" % kit


def main():
    if sys.argv[1:] == ["--write"]:
        write()
    section = read("docs", "PROMISES.md").split("\n## What is assumed\n")[1].split("\n## ")[0]
    found = list(wrong_crates(section)) + list(wrong_kit(read("README.md")))
    for line in found:
        print(line)
    print("assumptions of %d crates, %d wrong" % (len(names.crates()), len(found)))
    sys.exit(1 if found else 0)


if __name__ == "__main__":
    main()
