#!/usr/bin/env python3
"""The command for people: its words, statuses, pages, pictures, texts and waveforms, over the second implementation, and the
program that asks the proved library beside it. `--second` leaves that program out, so that no archive is wanted; a name runs
that part alone."""
import importlib
import os
import sys
import time

sys.path.insert(0, os.path.dirname(os.path.abspath(__file__)))
import asking

PARTS = ["verdicts", "drawings", "texts", "waves", "bench", "troubles", "installed", "using", "library"]


def main(arguments):
    alone = [name for name in arguments if name in PARTS]
    parts = alone or [name for name in PARTS if name != "library" or "--second" not in arguments]
    asking.build()
    for name in parts:
        began, before = time.monotonic(), asking.held
        importlib.import_module(name).check()
        print(f"{name}: {asking.held - before} expectations, {time.monotonic() - began:.1f} s")
    print(f"people: {asking.held} expectations, {asking.wrong} wrong")
    return 1 if asking.wrong else 0


if __name__ == "__main__":
    sys.exit(main(sys.argv[1:]))
