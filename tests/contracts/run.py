#!/usr/bin/env python3
"""Every public function of every library crate has its law in crates/demands/proofs/Settled.antt: its contract settles its
result and the contents of every buffer lent to it. The law's lines are made here from the function, and that file is these
lines, to the letter, and its proofs. The exceptions are those that docs/PROMISES.md names. A few functions, which hold a
reference to a struct or a struct with one, may have their law in crates/demands/proofs/Held.antt instead: what the contract
ensures, word for word as one fact.

No crate can name a static library, so what is exported for C has no law: each export is a function of the library that it is
made of, with the same parameters, the same answer and the same clauses, word for word, and each such function is exported.

The test is then given laws and sources made wrong on purpose (faults.py), and has to tell of each."""
import collections
import os
import re
import sys

import faults

ROOT = os.path.join(os.path.dirname(os.path.abspath(__file__)), "..", "..")
LAWS = os.path.join("crates", "demands", "proofs", "Settled.antt")
HELD = os.path.join("crates", "demands", "proofs", "Held.antt")

# The functions that may have their law in Held.
BY_HAND = {"browser-start", "browser-next", "browser-onward", "rows-count", "banks-fill", "morgazell-morgazell-open-row"}

# What they hand out refers to bytes that they were lent: of two results what is seen of them is the same.
SEEN = {
    "capture-open-to": "finding.seen %s", "capture-open": "finding.seen %s", "cells-held-Clean-judged": "finding.held %s.opened",
}

# The static library, and the library whose functions it exports.
EXPORTING, EXPORTED = "morgazell_c", "morgazell"

# They read and print for the programs: all of `console`, and of `wording` what is lent the mark of an output.
READING = "console"
PRINTING = "wording"
MARK = re.compile(r"&mut Out\b")

# What the laws and their proofs are written with.
BROUGHT = """\
use mathlib.Core.Path.{◌≡◌, sym, ◌∙◌}
use Rattle.refusal.proofs.Unique as refusal
use Rattle.rules.proofs.Unique as rules
use Rattle.part.proofs.Unique as part
use Rattle.judge.proofs.Unique as judge
use Rattle.banks.proofs.Unique as banks
use Rattle.cells.proofs.Unique as cells
use Rattle.drafts.proofs.Unique as drafts
use Rattle.serving.proofs.Unique as serving
use Rattle.monthly.proofs.Unique as monthly
use Rattle.demands.proofs.Finding as finding
use Rattle.demands.proofs.Judging as judging
""".splitlines()

# What is held by a type of which a reference is lent that cannot be written through.
LIFETIMES = re.compile(r"(?<=: &)(\w+)<'\w+>")

# What a type may lend that is written with brackets.
LENDING = re.compile(r"<.*['&]")

# Text in which a brace or `pub fn` means nothing.
QUIET = re.compile(r"""//[^\n]*|/\*(?:.|\n)*?\*/|b"(?:\\.|[^"\\])*"|b'(?:\\.|[^'\\])'""")

# What opens a block and whether it has a name, what closes it, and what is public in it.
PIECE = re.compile(
    r"""(?:\bmod\s+(?P<module>\w+)\s*|\bimpl\b(?:\s*<[^>]*>)?\s*(?P<type>\w+)(?:\s*<[^>]*>)?\s*)?(?P<open>\{)
    | (?P<close>\})
    | \bpub\s+(?:(?:const|unsafe|extern|"C")\s+)*fn\s+(?P<name>\w+)\s*(?:<[^>]*>)?\s*\((?P<parameters>[^)]*)\)\s*(?P<answers>->\s*&?)?
    """,
    re.X,
)

Function = collections.namedtuple("Function", "crate path parameters answer")


def read(*path):
    with open(os.path.join(ROOT, *path), encoding="utf-8") as file:
        return file.read()


CRATES = set(os.listdir(os.path.join(ROOT, "crates")))


def libraries():
    for line in read("crates.txt").splitlines():
        crate, *kind = line.split("#")[0].split(":")[0].split() or [""]
        if crate != READING and not kind and os.path.exists(os.path.join(ROOT, "crates", crate, "src", "lib.rt")):
            yield crate


def sources(crates=None):
    """(crate, module, text) of every source of every library, or of these crates."""
    for crate in crates or libraries():
        top = os.path.join(ROOT, "crates", crate, "src")
        for folder, _, files in sorted(os.walk(top)):
            for file in sorted(file for file in files if file.endswith(".rt")):
                place = os.path.relpath(os.path.join(folder, file), top)[: -len(".rt")]
                module = [name for name in place.split(os.sep) if name not in ("lib", "mod")]
                yield crate, module, read("crates", crate, "src", place + ".rt")


def homes(crate):
    """Of each type of a crate that has a module of its own, that module: its methods are found there, wherever they are written."""
    return {name: module for _, module, text in sources([crate] if crate in CRATES else []) if module
            for name in re.findall(r"^pub struct (\w+)", QUIET.sub("", text), re.M)}


def functions(crate, module, text):
    """The public functions of a source, also those of its modules and types."""
    blocks, home = [], homes(crate)
    for piece in PIECE.finditer(QUIET.sub("", text)):
        if piece["open"]:
            blocks.append(piece["module"] or piece["type"])
        elif piece["close"]:
            blocks.pop()
        else:
            named = [block for block in blocks if block]
            path = (home.get(named[0], module) if named else module) + named + [piece["name"]]
            parameters = [" ".join(p.split()) for p in re.split(r",(?![^<]*>)", piece["parameters"]) if p.strip()]
            if crate != PRINTING or not any(MARK.search(p) for p in parameters):
                yield Function(crate, path, parameters, piece["answers"])


def claims(function):
    """What the law says of two results z, z' and of two contents e, e' of what is lent."""
    said = []
    seen = SEEN.get(name_of(function))
    if seen:
        said.append("%s ≡ %s" % (seen % "z", seen % "z'"))
    elif function.answer:
        said.append("z.now ≡ z'.now" if function.answer.endswith("&") else "z ≡ z'")
    for place, parameter in enumerate(function.parameters):
        if re.search(r"&\s*('\w+ )?mut\b", parameter):
            at = ".1" * place + ".0.now"
            said.append("e%s ≡ e'%s" % (at, at))
    return said


def joined(said):
    return said[0] if len(said) == 1 else "(%s) × (%s)" % (said[0], joined(said[1:]))


def lines_of(function):
    """The lines of a function's law, without its proof."""
    said = claims(function)
    if not said:
        return []
    law = name_of(function)
    given = "(κs : _) (a : _) (z z' : _) (e e' : _) → %s.Post κs a z e → %s.Post κs a z' e'" % (law, law)
    return [
        "use Rattle.%s.proofs.%s.Reads as %s" % (function.crate, ".".join(function.path), law),
        "pub %s-settles : %s → %s" % (law, given, joined(said)),
        "%s-settles κs a z z' e e' p q =" % law,
    ]


def name_of(function):
    return "-".join([function.crate] + function.path).replace("_", "-")


def held_laws(held):
    """The functions that have their law in Held: what `ensures` says is one fact there, and the proof that it is so is `refl`."""
    laws = re.findall(r"^  pub (\S+)-says : (.*)\n  \1-says κs a g z e = refl$", at_once(held), re.M)
    return [name for name, law in laws if re.fullmatch(re.escape(GIVEN % name) + r" fact 𝓤 \(.*\)", law)]


GIVEN = "(κs : _) (a : _) (g : _) (z : _) (e : _) → (%s.clauses 𝓛 mem run κs a).ensures g z e ≡"


def unheld(texts, held):
    """The functions in Held that are not among those that may be, or none at all, and laws of another form."""
    public = {name_of(f) for text in texts for f in functions(*text)}
    there, named = held_laws(held), re.findall(r"^  pub (\S+) : ", at_once(held), re.M)
    yield from ("no law that may stand in %s: %s" % (HELD, name) for name in there if name not in BY_HAND & public or there.count(name) > 1)
    yield from ("no law of that form in %s: %s" % (HELD, name) for name in named if name not in [law + "-says" for law in there])


def at_once(text, margin=4):
    """Each declaration on one line, however it is laid out: what is set in so far goes on with the line above."""
    return re.sub(r"\n {%d,}" % margin, " ", text)


# ---- what is exported

def heads(text):
    """Each public function: its head, from its name to its body, and its body."""
    found = re.findall(r"^pub (?:extern \"C\" )?fn (\w+)(.*?)\n?\{\n(.*?)^\}$", text, re.M | re.S)
    return {name: (" ".join(head.replace(",\n)", ")").split()).replace("( ", "("), " ".join(body.split())) for name, head, body in found}


def code(crate):
    return QUIET.sub("", "\n".join(text for _, _, text in sources([crate])))


def unexported(exported, exporting):
    """What is not the same in the text of the static library and in that of the library that it is made of."""
    ours, theirs = heads(exported), heads(exporting)
    ours = {name: head for name, head in ours.items() if name.startswith(EXPORTED + "_")}
    yield from ("%s exports no %s" % (EXPORTING, name) for name in sorted(set(ours) - set(theirs)))
    if len(theirs) != len(re.findall(r"\bno_mangle\b", exporting)):
        yield "%s has other functions than those that it exports" % EXPORTING
    for name, (head, body) in sorted(theirs.items()):
        if name not in ours or head != ours[name][0]:
            yield "%s::%s has not the head of a function of %s" % (EXPORTING, name, EXPORTED)
        if not re.fullmatch(r"%s::%s\([\w, ]*\)" % (EXPORTED, name), body):
            yield "%s::%s does more than to call %s::%s" % (EXPORTING, name, EXPORTED, name)


# ---- all of it

def wrong(texts, laws, held):
    """What is missing in the laws, and what stands there beside them."""
    elsewhere = held_laws(held)
    public = [function for text in texts for function in functions(*text) if name_of(function) not in elsewhere]
    wanted = collections.Counter(BROUGHT)
    for function in public:
        wanted.update(lines_of(function))
    there = collections.Counter()
    for line in laws.splitlines():
        if line and not line.startswith("-- "):
            there[re.sub(r"^(\S+-settles κs a z z' e e' p q =) .*$", r"\1", line)] += 1
    held = ["no law can say what is lent inside %s of %s::%s" % (p, f.crate, "::".join(f.path))
            for f in public for p in f.parameters if LENDING.search(LIFETIMES.sub(r"\1", p))]
    return held + ["missing: " + line for line in wanted - there] + ["of no public function: " + line for line in there - wanted]


def main():
    texts, laws, held = list(sources()), at_once(read(LAWS), 2), read(HELD)
    both = code(EXPORTED), code(EXPORTING)
    found = wrong(texts, laws, held) + list(unheld(texts, held)) + list(unexported(*both))
    if "mod Held" not in read("crates", "demands", "proofs", "Lib.antt").splitlines():
        found.append("the laws of functions proved by hand are not declared, so nothing checks them")
    if "mod Settled" not in read("crates", "demands", "proofs", "Lib.antt").splitlines():
        found.append("the laws are not declared, so nothing checks them")
    made = [] if found else list(faults.made(texts, laws))
    unnoticed = [name for name, said, *fault in made if not any(said in line for line in wrong(*fault, held))]
    made += [] if found else list(faults.exported(*both))
    unnoticed += [name for name, said, *fault in made[-len(faults.EXPORTS):] if not any(said in line for line in unexported(*fault))]
    for line in found + ["not noticed: " + name for name in unnoticed]:
        print(line)
    count = sum(1 for text in texts for _ in functions(*text))
    print("%d public functions, %d wrong; %d faults made on purpose, %d not noticed" % (count, len(found), len(made), len(unnoticed)))
    sys.exit(1 if found or unnoticed else 0)


if __name__ == "__main__":
    main()
