"""The proved library: the program that asks it answers as the second implementation does, on samples and generated captures; the
command installed from here judges, and makes the same pages where the library explains."""
import os
import re
import subprocess
import tempfile

from asking import (BLANK, CELLS, JUDGE, KEPT, OPENINGS, PLAY, READ_EXPORT, ROOT, SAMPLES, SCHEDULE, WHY, WRITE_EXPORT, Second,
                    bytes_of, generated, hold, holds, read, run)
from captures import USUAL, settings_in

ABLE, EXPLAINS, PLAYS = 13, 1, 2
X86 = os.path.join(ROOT, "tests", "x86")


def check():
    for tool in ("archive", "people"):
        subprocess.run([os.path.join(ROOT, "tools", tool)], check=True, stdout=subprocess.DEVNULL)
    second, library = Second(), Second([X86, "run", os.path.join(ROOT, "target", "people", "ask")])
    able = compare(second, library)
    hold("it ends with its questions", library.end(), 0)
    second.end()
    installed(able)


def compare(second, library):
    """What the library is able to, when all that it is able to was asked."""
    able = library(ABLE, b"")[0][2]
    asked = [JUDGE, CELLS, BLANK, WRITE_EXPORT] + [WHY, KEPT] * bool(able & EXPLAINS)
    for i, data in enumerate([read(name) for name in SAMPLES] + generated(31, 250)):
        for question in asked:
            hold(f"capture {i}, question {question}", library(question, data), second(question, data))
        for bank, event in ((0, 0), (i % 5, 7 * i % 50)):
            hold(f"capture {i}, open rows", library(OPENINGS, data, b"", bank, event), second(OPENINGS, data, b"", bank, event))
        others(second, library, able, data, i)
    return able


def others(second, library, able, data, i):
    settings = bytes_of(*(settings_in(data)[:14] if second(JUDGE, data)[0][0] == 0 else USUAL))
    requests = bytes_of(*((i * place * 977 & 0xFFFF) | place % 3 // 2 << 31 for place in range(i % 40)))
    for question, first, behind in ((SCHEDULE, settings, requests), (READ_EXPORT, data[80:80 + 6 * (i % 30)], settings)):
        hold(f"input {i}, question {question}", library(question, first, behind, i % 2), second(question, first, behind, i % 2))
    if able & PLAYS:
        words = bytes_of(*range(64), *(word for place in range(400) for word in (place * 7919, place % 16)))
        hold(f"capture {i}, played", library(PLAY, data, words, 0, 64), second(PLAY, data, words, 0, 64))


def installed(able):
    with tempfile.TemporaryDirectory() as folder:
        prefix = os.path.join(folder, "a folder's")
        subprocess.run([os.path.join(ROOT, "tools", "install"), prefix], check=True, stdout=subprocess.DEVNULL)
        command = os.path.join(prefix, "bin", "morgazell")
        plain = {key: value for key, value in os.environ.items() if not key.startswith(("MORGAZELL", "PYTHON"))}
        call = lambda *words: subprocess.run([command, *words], capture_output=True, cwd=folder, env=plain)
        with open(os.path.join(ROOT, "target", "morgazell", "VERSION")) as file:
            version = file.read().strip()
        hold("the version", call("--version").stdout.decode(), f"morgazell {version}\n")
        hold("lines", call("judge", *SAMPLES).stdout, run("judge", *SAMPLES).stdout)
        hold("of recordings", call("judge", "--recording", folder, *SAMPLES).stdout, run("judge", "--recording", folder, *SAMPLES).stdout)
        hold("pages", (call("inspect", "-o", "mine", *SAMPLES).returncode, run("inspect", "-o", "second", *SAMPLES, cwd=folder, MORGAZELL_ABLE=str(able),
                                                                                MORGAZELL_VERSION=version).returncode), (2, 2))
        for page in sorted(os.listdir(os.path.join(folder, "second"))):
            mine, other = (undated(read(os.path.join(folder, kind, page))) for kind in ("mine", "second"))
            hold(f"{page}: the same page", mine == other, True)
        manuals = os.listdir(os.path.join(prefix, "share", "man", "man1"))
        holds("manual pages", "morgazell.1" in manuals and "morgazell-judge.1" in manuals)
        holds("completion", os.path.exists(os.path.join(prefix, "share", "bash-completion", "completions", "morgazell")))
        ended = subprocess.run([os.path.join(ROOT, "tools", "morgazell"), "judge", SAMPLES[0]], capture_output=True, env=plain)
        hold("from the clone", ended.stdout, run("judge", SAMPLES[0]).stdout)


def undated(page):
    return re.sub(rb"\d{4}-\d\d-\d\d \d\d:\d\d UTC", b"", page)
