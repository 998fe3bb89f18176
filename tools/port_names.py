#!/usr/bin/env python3
"""Brings the repository's own definitions and lemmas to snake case, as the port asked: `python3 tools/port_names.py [--check]`, once, at the top.

In the specs, the proofs, the edits and the code of crates/ each name is respelled that begins with a small letter and holds a
capital: a definition, a lemma, a field, a constructor or a variable. Each part between dashes goes by itself: `bytesOf-append`
becomes `bytes_of-append`. Types, facts and modules keep their capitals; functions of src/ have none. Strings and numerals stay,
and of a comment all but what stands in backticks.
"""
import os
import re
import sys

NAME = re.compile(r"(?<![\w'])[A-Za-zͰ-ῼ_₀-₉'][\wͰ-ῼ₀-₉'°′-]*")


# Lemmas whose names a definition takes over.
TAKEN = {
    "crates/cells/proofs/Unique.antt": ["given_back"],
    "crates/demands/proofs/OpenRow.antt": ["row_told"],
    "crates/exports/proofs/Outgoing.antt": ["too_far"],
    "crates/exports/proofs/write/Proof.antt": ["too_far"],
    "crates/player/proofs/Loops.antt": ["in_window"],
    "crates/player/proofs/fetch/Proof.antt": ["in_window"],
    "crates/player/proofs/store/Proof.antt": ["in_window"],
}


def snake(part):
    if not re.match(r"[a-z]", part) or not re.search(r"[A-Z]", part):
        return part
    part = re.sub(r"([a-z0-9])([A-Z])", r"\1_\2", part)
    return re.sub(r"([A-Z]+)([A-Z][a-z])", r"\1_\2", part).lower()


def spelled(name):
    return "-".join(map(snake, name.split("-")))


def files(root):
    for folder, dirs, names in os.walk(os.path.join(root, "crates")):
        dirs[:] = sorted(d for d in dirs if d not in ("out", "target"))
        for n in sorted(names):
            if n.endswith((".antt", ".rt", ".edit")):
                yield os.path.join(folder, n)


def pieces(text, comment):
    """The text in runs, each with whether names in it are turned: not in comments and strings."""
    at = 0
    for m in re.finditer(comment + r'|b?"(?:\\.|[^"\\])*"', text):
        yield text[at : m.start()], True
        yield m[0], False
        at = m.end()
    yield text[at:], True


def turned(text, comment):
    out = []
    for piece, code in pieces(text, comment):
        if code:
            piece = NAME.sub(lambda m: spelled(m[0]), piece)
        elif piece[:2] in ("--", "//"):
            piece = re.sub(r"`([^`]*)`", lambda m: "`" + NAME.sub(lambda n: spelled(n[0]), m[1]) + "`", piece)
        out.append(piece)
    return "".join(out)


def main():
    check = "--check" in sys.argv
    seen, after = {}, {}
    for path in files("."):
        with open(path, encoding="utf-8") as it:
            text = it.read()
        comment = r"//[^\n]*" if path.endswith((".rt", ".edit")) else r"--[^\n]*"
        for piece, code in pieces(text, comment):
            for m in NAME.finditer(piece) if code else ():
                seen.setdefault(m[0], path)
        new = text
        for lemma in TAKEN.get(os.path.relpath(path, "."), ()):
            new = re.sub(rf"(?<![.\w'-]){lemma}(?![\w'-]|\.(?!\{{))", lemma + "_lem", new)
        new = turned(new, comment)
        if new != text:
            after[path] = new
    made = {n: spelled(n) for n in seen if spelled(n) != n}
    for old, new in sorted(made.items()):
        if new in seen:
            print(f"falls together: {old} ({seen[old]}) and {new} ({seen[new]})")
    print(f"{len(made)} names, {len(after)} files")
    if not check:
        for path, text in after.items():
            with open(path, "w", encoding="utf-8") as it:
                it.write(text)


main()
