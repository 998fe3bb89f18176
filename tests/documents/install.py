"""README.md's install line is enough for what the gate runs: every command that its scripts call comes with Debian itself, with
a package of that line, with the kit, or with the Rust that the table below the line asks for."""
import re

import names
import shell
from names import read

# What every Debian has.
SYSTEM = set("apt-get awk basename cat chmod cp dirname find grep ln mkdir mktemp mv readlink rm sed sh sha256sum sort tail tar uname".split())

# The package that brings a command.
BRINGS = {"gcc": "gcc", "cc": "gcc", "ar": "gcc", "objdump": "gcc", "size": "gcc", "g++": "g++", "c++": "g++", "git": "git", "groff": "groff-base",
          "pkg-config": "pkg-config", "python3": "python3", "shellcheck": "shellcheck", "valgrind": "valgrind"}

# Without these there is nothing to run, though no script names them.
ALSO = {"git": "the clone", "libc6-dev": "what gcc compiles"}

KIT = {"rt"}
RUST = {"cargo", "rustc"}

# A tool for x86-64, by the function of tests/x86 that finds it; a program that Python calls.
TOOL = re.compile(r"^[^#\n]*\btool ([a-z][\w+]*)", re.M)
PYTHON = re.compile(r"""(?:subprocess\.(?:run|Popen|check_output)\(|which\()\(?\[?["']([a-z][\w+-]*)["']""")


def called():
    """(command, script)"""
    for path in names.files("tests") + names.files("tools") + names.files(".ci"):
        if path.endswith(".pyc") or "/data/" in path or "/fuzz/" in path:
            continue
        text = read(path)
        if text.startswith("#!/bin/sh\n"):
            yield from ((name, path) for name in shell.calls(text) + TOOL.findall(text))
        elif text.startswith("#!/usr/bin/env python3\n"):
            yield from ((name, path) for name in PYTHON.findall(text))


def wrong(readme):
    line = re.search(r"^ +apt-get install (.*)$", readme, re.M)
    packages = set(line.group(1).split()) if line else set()
    needed = dict(ALSO)
    for command, path in called():
        if command in BRINGS:
            needed[BRINGS[command]] = command
        elif command not in SYSTEM | KIT | RUST:
            yield "no package is known for the command %s of %s" % (command, path.split("/")[-1])
    yield from ("the install line lacks %s, for %s" % (package, needed[package]) for package in sorted(set(needed) - packages))
    yield from ("nothing needs %s of the install line" % package for package in sorted(packages - set(needed)))
