#!/usr/bin/env python3
"""The size of both builds of the archive, in bytes, as docs/PERFORMANCE.md states it: the file, and the code and read-only
data that a program carries which calls all of it, judge and burst cells, or the judge alone. Ends with 1 where the document
says otherwise."""
import os
import subprocess
import sys
import tempfile

HERE = os.path.dirname(os.path.abspath(__file__))
ROOT = os.path.normpath(os.path.join(HERE, "..", ".."))
sys.dont_write_bytecode = True
sys.path.insert(0, os.path.join(HERE, ".."))
import elf

PAGE = os.path.join(ROOT, "docs", "PERFORMANCE.md")
BUILDS = {"`tools/archive`": "morgazell", "`tools/smallest`": "morgazell-smallest"}
VERSION, JUDGE, CELLS, SCHEDULE = "morgazell_version", "morgazell_judge", "morgazell_cells", "morgazell_schedule"
BLANK, RECORDING, ROW, PLAY = "morgazell_blank", "morgazell_recording", "morgazell_open_row", "morgazell_play"
EXPORTS = ("morgazell_read_export", "morgazell_write_export")
CALLERS = [(VERSION, JUDGE, RECORDING, CELLS, SCHEDULE, BLANK, ROW, PLAY, *EXPORTS), (JUDGE, CELLS), (JUDGE,)]


def carried(archive, functions):
    """Bytes of code and of read-only data that a program which calls these functions carries."""
    with tempfile.NamedTemporaryFile(suffix=".o") as file:
        wanted = ["-Wl,-u," + function for function in functions]
        subprocess.run([os.path.join(ROOT, "tests", "x86"), "join", *wanted, "-o", file.name, archive], check=True)
        sections = elf.sections(file.read())
    if any(section.is_written() and section.data for section in sections):
        raise SystemExit("the archive has data that is written")
    return (sum(len(s.data) for s in sections if s.is_code()), sum(len(s.data) for s in sections if s.is_read_only_data()))


def measured(title, folder):
    archive = os.path.join(ROOT, "target", folder, "lib", "libmorgazell.a")
    cells = ["{:,}".format(os.path.getsize(archive))]
    cells += ["{:,} and {:,}".format(*carried(archive, functions)) for functions in CALLERS]
    return "| %s | %s |" % (title, " | ".join(cells))


def main():
    with open(PAGE, encoding="utf-8") as file:
        stated = file.read().split("\n")
    wrong = 0
    for build, (title, folder) in zip(("quick", "smallest"), BUILDS.items()):
        subprocess.run([os.path.join(ROOT, "tests", "c", "build"), build], check=True, stdout=subprocess.DEVNULL)
        line = measured(title, folder)
        print(line)
        if line not in stated:
            wrong += 1
            print("WRONG docs/PERFORMANCE.md has no such line")
    return 1 if wrong else 0


sys.exit(main())
