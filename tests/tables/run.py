#!/usr/bin/env python3
"""The published burst tables: every row as the archive lists it, and no row stored in the archive.

1. The rows in crates/reading/proofs/Cases/Tables.antt are those of the five sheets in tests/data/burst-tables.
2. Each of the 300 rows is asked of morgazell_cells through C, of the quick build and of the smallest, for a READ and a WRITE,
   in the first block of a row of cells, one in the middle and the last.
3. Neither build holds a row in code or read-only data, in any of the spellings of rows.py; each byte of read-only data is the
   compiler's jump table or lies in a 16-byte constant of a vector; and no crate of the archive has an array constant but the
   limits of the settings.
4. That 3 would notice: the same search over object files that store rows (stored.c, in every spelling), and over the archive
   with stored-rows.txt added to its source."""
import glob
import os
import re
import shutil
import struct
import subprocess
import sys
import tempfile

HERE = os.path.dirname(os.path.abspath(__file__))
ROOT = os.path.normpath(os.path.join(HERE, "..", ".."))
sys.dont_write_bytecode = True
sys.path[:0] = [HERE, os.path.join(HERE, "..")]
import elf
from captures import ACTIVE, READ, USUAL, WRITE, capture, column, mode_word, setting
from rows import published, searched

X86 = os.path.join(ROOT, "tests", "x86")
BUILDS = {"quick": "morgazell", "smallest": "morgazell-smallest"}

wrong = 0


def tell(text):
    global wrong
    wrong += 1
    print("WRONG " + text)


# ---- 1: the rows of the worked cases

def worked_rows():
    """(length, interleaved) to the rows, in their order."""
    with open(os.path.join(ROOT, "crates", "reading", "proofs", "Cases", "Tables.antt"), encoding="utf-8") as file:
        text = file.read()
    tables = {}
    for order, length, body in re.findall(r"^(\w+)-(\d+) : table \w+ ≡\n(.*?)\nunfolding", text, re.M | re.S):
        rows = [tuple(int(place) for place in re.findall(r"\d+", row)) for row in re.findall(r"\(([^()]*)\)", body)]
        tables[int(length), order == "interleaved"] = rows
    return tables


def hold_worked_rows():
    worked = worked_rows()
    seen = set()
    for sheet, length, start, interleaved, order in published():
        rows = worked.get((length, interleaved), [])
        if start >= len(rows) or rows[start] != order:
            tell("Cases/Tables has another row than sheet %s, length %d from %d" % (sheet, length, start))
        seen.add((length, interleaved, start))
    if len(seen) != sum(len(rows) for rows in worked.values()):
        tell("Cases/Tables has a row that no sheet has")


# ---- 2: every row through C

def question(data, room):
    return struct.pack("<5I", 2, len(data), 0, room, 0) + data + bytes(4 * room)


def burst(length, interleaved, start, block, command):
    settings = setting(3, mode_word(length, interleaved, 3))
    return capture([(0, ACTIVE), (3, command | column(block + start))], settings)


def hold_rows(build, server):
    columns = 2 ** USUAL[2]
    asked, wanted = [], []
    rows = list(published())
    for sheet, length, start, interleaved, order in rows:
        for block in (0, columns // 2, columns - length):
            for command in (READ, WRITE):
                asked.append(question(burst(length, interleaved, start, block, command), length))
                wanted.append((length, tuple(block + place for place in order), (sheet, length, start, interleaved)))
    run = subprocess.run([X86, "run", server], input=b"".join(asked), capture_output=True, check=True)
    at = 0
    for count, cells, title in wanted:
        answer, = struct.unpack_from("<Q", run.stdout, at)
        left = struct.unpack_from("<%dI" % count, run.stdout, at + 8)
        at += 8 + 4 * count
        if answer != count or left != cells:
            tell("%s build, row %s: answer %#x, %s" % (build, title, answer, left))
    if at != len(run.stdout):
        tell("%s build: bytes behind the last answer" % build)
    return len(rows), len(wanted)


# ---- 3 and 4: no row is stored

def stored(objects):
    """What speaks of a table in these object files, a line each."""
    found = []
    for section in (s for data in objects for s in elf.sections(data)):
        if not section.flags & elf.ALLOCATED:
            continue
        for title, pattern in searched():
            if pattern in section.data:
                found.append("%s has a row: %s" % (section.name, title))
        if section.is_written() and section.data:
            found.append("%s is data that is written" % section.name)
        if section.is_read_only_data() and not accounted(section):
            found.append("%s is neither a jump table nor constants of vectors" % section.name)
    return found


def accounted(section):
    jumps = section.name.startswith(".rodata.") and sorted(section.relocated) == list(range(0, len(section.data), 4))
    return jumps or section.name == ".rodata.cst16" or not section.data


def array_constants():
    """The array constants of the crates that the archive is made of."""
    with open(os.path.join(ROOT, "crates.txt"), encoding="utf-8") as file:
        lines = [line.split("#")[0].split(":") for line in file if ":" in line.split("#")[0]]
    needs = {line[0].split()[0]: line[1] for line in lines}
    todo, crates = ["morgazell_c"], set()
    while todo:
        crate = todo.pop()
        if crate in needs and crate not in crates:
            crates.add(crate)
            todo += needs[crate].split()
    for crate in sorted(crates):
        for folder, _, names in os.walk(os.path.join(ROOT, "crates", crate, "src")):
            for name in sorted(names):
                with open(os.path.join(folder, name), encoding="utf-8") as file:
                    for constant in re.findall(r"\bconst\s+(\w+)\s*:\s*\[", file.read()):
                        yield "%s::%s" % (crate, constant)


def compiled(source, *words):
    """The object file of a C source, as a client's own file would be."""
    with tempfile.NamedTemporaryFile(suffix=".o") as file:
        subprocess.run([X86, "compile", "-c", *words, "-o", file.name, source], check=True)
        return file.read()


def hold_noticing():
    """Every way of storing rows in stored.c is noticed, and the same file without rows is not taken for one."""
    source = os.path.join(HERE, "stored.c")
    with open(source, encoding="ascii") as file:
        ways = re.findall(r"^#(?:el)?if defined (\w+)", file.read(), re.M)
    for way in ways:
        if not any(" has a row: " in line for line in stored([compiled(source, "-D" + way)])):
            tell("rows that are stored as %s are not noticed" % way)
    if any(" has a row: " in line for line in stored([compiled(source)])):
        tell("a file without rows is taken for one with a table")
    return len(ways)


def hold_noticing_in_the_archive():
    """The library with a table in its source, built in a copy of the repository as tools/archive builds it, over the libraries
    that are there: the copy is outside, since `rt ci` reads all that is in the repository."""
    with tempfile.TemporaryDirectory() as copy:
        for name in ("crates.txt", os.path.join("tools", "build")):
            os.makedirs(os.path.dirname(os.path.join(copy, name)), exist_ok=True)
            shutil.copy(os.path.join(ROOT, name), os.path.join(copy, name))
        for kept in sorted(glob.glob(os.path.join(ROOT, "crates", "*", "out", "rlib"))):
            shutil.copytree(kept, os.path.join(copy, os.path.relpath(kept, ROOT)))
        crate = os.path.join(copy, "crates", "morgazell_c")
        shutil.copytree(os.path.join(ROOT, "crates", "morgazell_c"), crate, ignore=shutil.ignore_patterns("must-fail", "out"))
        with open(os.path.join(HERE, "stored-rows.txt"), encoding="utf-8") as rows:
            with open(os.path.join(crate, "src", "lib.rt"), "a", encoding="utf-8") as library:
                library.write("\n" + rows.read())
        archive = os.path.join(crate, "out", "libmorgazell_c.a")
        built = subprocess.run([os.path.join(copy, "tools", "build"), "--over", archive, "morgazell_c"], capture_output=True, text=True)
        if built.returncode != 0:
            tell("the library with a table in it is not built: " + (built.stdout + built.stderr)[-600:])
        elif not any(" has a row: " in line for line in stored(elf.members(archive))):
            tell("a table in the library's source is not noticed in the archive")


def main():
    hold_worked_rows()
    for build, folder in BUILDS.items():
        subprocess.run([os.path.join(ROOT, "tests", "c", "build"), build], check=True, stdout=subprocess.DEVNULL)
        rows, asked = hold_rows(build, os.path.join(ROOT, "target", "c", build, "serve"))
        for line in stored(elf.members(os.path.join(ROOT, "target", folder, "lib", "libmorgazell.a"))):
            tell("%s build: %s" % (build, line))
        print("%s build: %d published rows, %d bursts listed" % (build, rows, asked))
    constants = list(array_constants())
    if constants != ["settings::LIMITS"]:
        tell("array constants of the archive: %s" % ", ".join(constants))
    ways = hold_noticing()
    hold_noticing_in_the_archive()
    print("tables: %d spellings of rows searched for, %d ways to store rows noticed, %d wrong" % (len(list(searched())), ways + 1, wrong))
    return 1 if wrong else 0


sys.exit(main())
