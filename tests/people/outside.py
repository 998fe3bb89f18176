#!/usr/bin/env python3
"""Outside the gate, with Debian's chromium, sigrok-cli and gtkwave: every sample's page as a picture in target/people/shots, to
be looked at, and printed, to be one sheet each; every waveform read by sigrok and held to the capture, and taken by vcd2fst."""
import os
import re
import subprocess
import sys
import tempfile

sys.path.insert(0, os.path.dirname(os.path.abspath(__file__)))
import asking
from asking import JUDGE, ROOT, SAMPLES, Second, hold, holds, read, run, said
from captures import events_in

SHOTS = os.path.join(ROOT, "target", "people", "shots")
PINS = ["cs_n", "ras_n", "cas_n", "we_n"]


def chromium(folder, *words):
    subprocess.run(["chromium", "--headless", "--no-sandbox", "--disable-gpu", "--hide-scrollbars", f"--user-data-dir={folder}/profile", *words],
                   stdout=subprocess.DEVNULL, stderr=subprocess.DEVNULL, check=True, timeout=120)


def pages(folder, names):
    os.makedirs(SHOTS, exist_ok=True)
    said("inspect", run("inspect", "--pdf", "--part", "MT46H64M16LF -5 CL3", "-o", folder, *names), 2, "", "")
    for name in names:
        base = os.path.join(folder, os.path.basename(name))
        sheets = len(re.findall(rb"/Type\s*/Page\b(?!s)", read(base + ".pdf")))
        hold(f"{os.path.basename(name)}: sheets of paper", sheets, 1)
        shot = os.path.join(SHOTS, os.path.basename(name) + ".png")
        chromium(folder, "--window-size=800,1130", f"--screenshot={shot}", f"file://{base}.html")
        holds("a picture", os.path.getsize(shot) > 10_000)
    chromium(folder, "--window-size=1000,1000", f"--screenshot={os.path.join(SHOTS, 'index.png')}", f"file://{folder}/index.html")


def by_sigrok(name, data, vcd):
    """One row a cycle: the pins of an event at its cycle, NOP elsewhere, CKE as it holds."""
    ended = subprocess.run(["sigrok-cli", "-I", "vcd", "-i", vcd, "-O", "csv"], capture_output=True, text=True, check=True)
    names = re.search(r"^; Channels .*: (.*)$", ended.stdout, re.M).group(1).split(", ")
    rows = [line.split(",") for line in ended.stdout.split("\n") if line[:1].isdigit()]
    events, low, wrong = dict(events_in(data)), 0, []
    place = {wire: names.index(wire) for wire in PINS + ["cke", "event"] + [f"a{i}" for i in range(14)] + ["ba0", "ba1"]}
    for cycle, row in enumerate(rows):
        pins = events.get(cycle, 0b1110 << 16 | low << 20)
        low = pins >> 20 & 1
        at = lambda wire, row=row: int(row[place[wire]])
        right = all(at(wire) == pins >> 16 + i & 1 for i, wire in enumerate(PINS)) and at("cke") == 1 - low and at("event") == (cycle in events)
        if cycle in events:
            right &= all(at(f"a{i}") == pins >> i & 1 for i in range(14)) and at("ba0") == pins >> 14 & 1 and at("ba1") == pins >> 15 & 1
        if not right:
            wrong.append(cycle)
    hold(f"{name}: cycles that sigrok reads otherwise", wrong[:5], [])
    holds(f"{name}: up to the last event", len(rows) > max(events, default=0))


def main():
    asking.build()
    second = Second()
    with tempfile.TemporaryDirectory() as folder:
        for name in SAMPLES:
            data, base = read(name), os.path.basename(name)
            if second(JUDGE, data)[0][0]:
                continue
            for words in ([], ["--gtkwave"]):
                vcd = os.path.join(folder, "x.vcd")
                said(base, run("vcd", *words, name, "-o", vcd), 0, "", "")
                ended = subprocess.run(["vcd2fst", vcd, os.path.join(folder, "x.fst")], capture_output=True)
                hold(f"{base}: vcd2fst", ended.returncode, 0)
                if not words:
                    by_sigrok(base, data, vcd)
        pages(folder, SAMPLES)
    second.end()
    print(f"outside: {asking.held} expectations, {asking.wrong} wrong; look at {os.path.relpath(SHOTS, ROOT)}")
    return 1 if asking.wrong else 0


if __name__ == "__main__":
    sys.exit(main())
