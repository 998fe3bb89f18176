"""Help, manual pages and completion say the same words and options."""
import os
import re
import shutil
import subprocess
import tempfile

from asking import ROOT, VERSION, hold, holds, read, run, said

import morgazell.manual as manual
from morgazell.cli import parser

WORDS = ["judge", "inspect", "margins", "picture", "vcd", "text", "capture", "blank", "cells", "open-rows", "export", "import", "schedule",
         "play", "month"]


def check():
    words = manual.words_of(parser())
    hold("the words", sorted(name for name, _, _ in words), sorted(WORDS))
    helps(words)
    pages(words)
    completion(words)


def options_of(one):
    return {sign for action in one._actions for sign in action.option_strings}


def helps(words):
    said("--version", run("--version"), 0, f"morgazell {VERSION}\n", "")
    whole = run("--help")
    said("--help", whole, 0, err="")
    for name, what, one in words:
        holds(f"{name} in --help", re.search(rf"^    {name}\s", whole.stdout.decode(), re.M))
        text = one.format_help()
        holds(f"{name}: an example of it", re.search(rf"Example: morgazell {name} ", text))
        holds(f"{name}: every option has its words", all(action.help for action in one._actions))
        holds(f"{name}: in words", what and one.description)
    ended = run("play", "--help")
    said("play --help", ended, 0, next(one for name, _, one in words if name == "play").format_help(), "")


def pages(words):
    with tempfile.TemporaryDirectory() as folder:
        shutil.copy(os.path.join(ROOT, "people", "morgazell.1"), folder)
        manual.main(VERSION, folder)
        hold("a page each", sorted(os.listdir(folder)), sorted(["morgazell.1"] + [f"morgazell-{name}.1" for name in WORDS]))
        own = read(os.path.join(folder, "morgazell.1")).decode()
        hold("no place is left empty", "@" in own, False)
        for name, _, one in words:
            escaped = name.replace("-", "\\-")
            holds(f"{name} in the command's page", f".BR morgazell\\-{escaped} (1)" in own)
            text = read(os.path.join(folder, f"morgazell-{name}.1")).decode()
            for sign in options_of(one):
                holds(f"{name}: {sign}", sign.replace("-", "\\-") in text)
            holds(f"{name}: an example", f"\n.nf\nmorgazell {escaped} " in text)
        rendered(folder)


def rendered(folder):
    """By groff, where it is there, without a warning."""
    if shutil.which("groff"):
        for name in sorted(os.listdir(folder)):
            ended = subprocess.run(["groff", "-man", "-Tascii", "-ww", os.path.join(folder, name)], capture_output=True)
            hold(f"{name}: warnings", (ended.returncode, ended.stderr), (0, b""))


def completion(words):
    script = os.path.join(ROOT, "people", "completion.bash")
    options = {name: options_of(one) for name, _, one in words}
    lines = [["morgazell", ""]] + [["morgazell", name, "-"] for name in WORDS] + [["morgazell", "schedule", "--policy", ""]]
    program = f". '{script}'\n" + "".join(
        f"COMP_WORDS=({' '.join(repr(word) for word in line)}); COMP_CWORD={len(line) - 1}; COMPREPLY=(); _morgazell; echo \"${{COMPREPLY[*]}}\"\n"
        for line in lines)
    ended = subprocess.run(["bash", "-c", program], capture_output=True, text=True)
    hold("completion", ended.stderr, "")
    told = [set(line.split()) for line in ended.stdout.split("\n")]
    hold("words", told[0], set(WORDS) | {"--version", "--help"})
    for name, found in zip(WORDS, told[1:]):
        hold(f"options of {name}", found, options[name])
    hold("policies", told[1 + len(WORDS)], {"open", "closed"})
