"""docs/USING.md: every command in it is run in the order of the page, prints what stands there, and ends as it says there."""
import os
import re
import shutil
import subprocess
import tempfile

from asking import ROOT, VERSION, environment, hold, holds, put, read

NEAR = os.path.join(ROOT, "samples")
FILES = {"board-17.capture": "tWTR", "board-18.capture": "clean-MT46H64M16LF", "night/clean-power-down.capture": "clean-power-down",
         "night/cut-short.capture": "cut-short", "night/late-refresh.capture": "late-refresh"}
ENDS = re.compile(r" +# ends with (\d+)$")


def steps(page):
    """(command, status, what it prints) in the order of the page."""
    found = []
    for line in page.split("\n"):
        if line.startswith("    $ "):
            ends = ENDS.search(line)
            found.append([ENDS.sub("", line[6:]), int(ends.group(1)) if ends else 0, []])
        elif line.startswith("    "):
            found[-1][2].append(line[4:])
    return found


def check():
    page = read(os.path.join(ROOT, "docs", "USING.md")).decode()
    told = steps(page)
    holds("there are commands", len(told) > 25)
    with tempfile.TemporaryDirectory() as folder:
        os.makedirs(os.path.join(folder, "night"))
        for name, sample in FILES.items():
            shutil.copy(os.path.join(NEAR, sample + ".capture"), os.path.join(folder, name))
        wrapper = put(folder, "morgazell", '#!/bin/sh\nexec python3 -S -m morgazell "$@"\n')
        os.chmod(wrapper, 0o755)
        path = folder + ":" + os.environ["PATH"]
        for command, status, printed in told:
            if command.startswith("cat "):
                put(folder, command[4:], "".join(line + "\n" for line in printed))
            ended = subprocess.run(["sh", "-c", command], cwd=folder, stdin=subprocess.DEVNULL, stdout=subprocess.PIPE, stderr=subprocess.STDOUT,
                                   env=environment(PATH=path))
            hold(f"{command}: printed", ended.stdout.decode().replace(VERSION, "VERSION").rstrip("\n").split("\n"), printed or [""])
            hold(f"{command}: status", ended.returncode, status)
        hold("every word is used", sorted(set(WORDS) - {word for command, _, _ in told for word in re.findall(r"morgazell ([a-z-]+)", command)}), [])


WORDS = ["judge", "inspect", "margins", "picture", "vcd", "text", "capture", "blank", "cells", "open-rows", "export", "import", "schedule",
         "play", "month"]
