#!/usr/bin/env python3
"""Holds the samples to each other: samples/make.py makes the captures, exports and plays that are there and the table of
samples/README.md, tools/judge-samples prints what the table says, the clean samples stand at the limits of the rules, and the board that
interrupts writes is the same in both editions."""
import os
import re
import subprocess
import sys
import tempfile

HERE = os.path.dirname(os.path.abspath(__file__))
sys.path.insert(0, os.path.join(HERE, ".."))
from captures import edition_in, setting, settings_in, with_edition, with_settings
from running import from_file

ROOT = os.path.join(HERE, "..", "..")
SAMPLES = os.path.join(ROOT, "samples")

# For settings 4 to 12, tRCD to tMRD, the rules that ask for them. An auto precharge waits for tRAS and tWR, and rule 5 for
# an auto precharge. The samples of sleep are at the limit of tXP or tXSR as well. tRC, setting 7, is not among them:
# no rule asks for it, and above tRAS + tRP it is refused.
ASKING = [(4, [8]), (5, [5]), (6, [5, 9]), (8, [7]), (9, [5, 10]), (10, [11]), (11, [4]), (12, [4])]
ASKING_BESIDES = {"clean-power-down.capture": [(14, [15])], "clean-self-refresh.capture": [(15, [15])]}


def samples_in(folder):
    found = {}
    for name in os.listdir(folder):
        if name.endswith((".capture", ".export", ".play")):
            with open(os.path.join(folder, name), "rb") as f:
                found[name] = f.read()
    return found


def table():
    with open(os.path.join(SAMPLES, "README.md")) as f:
        return [line.rstrip("\n") for line in f if line.startswith("| `")]


def expected(rows):
    """What judge-samples has to print: each file's name, captures first, then exports, then plays, and under it the lines of the table's last column."""
    lines = []
    for row in sorted(rows, key=lambda row: (".play`" in row, ".export`" in row, row)):
        cells = row.strip("| ").split(" | ")
        lines.append(cells[0].strip("`"))
        lines += ["    " + said for said in re.findall("`([^`]*)`", cells[-1])]
    return lines


def longer(name, data):
    """What is wrong if each time in turn is a cycle longer: a rule that asks for it has to be broken."""
    wrong = []
    settings = settings_in(data)
    for i, rules in ASKING + ASKING_BESIDES.get(name, []):
        said = said_with(data, setting(i, settings[i] + 1, settings))
        if not any(f"broken rule {rule} " in said for rule in rules):
            wrong.append(f"{name} with setting {i} at {settings[i] + 1}: {said!r}")
    return wrong


def longest_trc(name, data):
    """What is wrong with tRC as long as it may be, which changes nothing, and a cycle longer, which is refused."""
    settings = settings_in(data)
    most = settings[5] + settings[6]
    said = [said_with(data, setting(7, trc, settings)) for trc in (settings[7], most, most + 1)]
    return [] if said[0] == said[1] and said[2] == "refused 3 place 7\n" else [f"{name} with tRC at {most} and a cycle more: {said}"]


def of_two_editions(samples):
    """What is wrong if one board does not stand there in edition 1 and in edition 0."""
    newer, older = (samples[name] for name in ("clean-interrupted-writes.capture", "interrupted-writes-edition-0.capture"))
    same = edition_in(newer) == 1 and with_edition(newer, 0) == older
    return [] if same else ["the samples of interrupted writes differ in more than their edition"]


def said_with(data, settings):
    return from_file("report", with_settings(data, settings)).stdout.decode()


def main():
    wrong = []
    with tempfile.TemporaryDirectory() as folder:
        made = subprocess.run([sys.executable, os.path.join(SAMPLES, "make.py"), folder], capture_output=True, text=True)
        new, here = samples_in(folder), samples_in(SAMPLES)
    wrong += [f"make.py and samples/ differ in {name}" for name in new.keys() | here.keys() if new.get(name) != here.get(name)]
    if made.stdout.splitlines() != table():
        wrong.append(f"make.py prints another table than README.md has: {made.stdout}{made.stderr}")
    judged = subprocess.run([os.path.join(ROOT, "tools", "judge-samples")], capture_output=True, text=True)
    if judged.stdout.splitlines() != expected(table()) or judged.returncode:
        wrong.append(f"judge-samples prints otherwise than README.md's table: {judged.stdout}{judged.stderr}")
    for name, data in here.items():
        if name.startswith("clean-") and name.endswith(".capture"):
            wrong += longer(name, data) + longest_trc(name, data)
    wrong += of_two_editions(here)
    for line in wrong:
        print("WRONG", line)
    print(f"samples: {len(here)} files, {len(wrong)} wrong")
    return 1 if wrong or not here else 0


sys.exit(main())
