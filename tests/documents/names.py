"""What is there to be named: the files of the repository, the crates with their functions, definitions, laws and edits, the
tests, and the words of all sources."""
import functools
import glob
import os
import re

ROOT = os.path.normpath(os.path.join(os.path.dirname(os.path.abspath(__file__)), "..", ".."))
FOLDERS = [".ci", "crates", "docs", "examples", "include", "package", "samples", "tests", "tools"]

# Crates of the kit; what they have is not ours to look for.
KIT = {"io", "libc", "os", "std"}

# Work that has not landed lies in the tree and is no part of the gate: no page has to name it, and what it names need not be
# there. In crates/ it has the ending .txt.
NOT_LANDED = ("docs/USING.md", "people/", "tests/people/", "tools/install", "tools/morgazell", "tools/people",
              "tests/second/src/bin/answers.rs", "tests/second/src/bin/reasons.rs")

# tests/run has its tests in these groups.
GROUPS = {"sources", "programs", "archive"}

LAW = re.compile(r"^\s*(?:(?:abbrev|unfoldable|pub|data|record)\s+)*([^\s:(){}]+)\s*:", re.M)
ITEM = re.compile(r"\b(?:fn|struct|enum|const|static|mod|type)\s+(\w+)")


def read(*path):
    with open(os.path.join(ROOT, *path), encoding="utf-8") as file:
        return file.read()


def is_landed(path):
    path = os.path.relpath(path, ROOT)
    return not path.startswith(NOT_LANDED) and not (path.startswith("crates/") and path.endswith(".txt"))


def is_built(path):
    """What rt leaves in each crate's out/, and Python beside its sources."""
    return re.match(r"crates/\w+/out/", os.path.relpath(path, ROOT)) or "/__pycache__/" in path


def files(folder, *endings):
    """The texts of a folder, without what is built and what has not landed."""
    found = glob.glob(os.path.join(ROOT, folder, "**"), recursive=True)
    return sorted(path for path in found if os.path.isfile(path) and (not endings or path.endswith(endings))
                  and is_landed(path) and not is_built(path))


@functools.cache
def crates():
    """Each crate with what it directly rests on."""
    lines = [line.split("#")[0].strip() for line in read("crates.txt").splitlines()]
    return {line.split(":")[0].split()[0]: line.split(":")[1].split() for line in lines if line}


def rests_on(crate):
    """A crate and all that it rests on, without the kit's."""
    found, ahead = set(), [crate]
    while ahead:
        name = ahead.pop()
        if name in crates() and name not in found:
            found.add(name)
            ahead += crates()[name]
    return found


@functools.cache
def laws(path):
    """The names that a file of definitions or laws has."""
    with open(path, encoding="utf-8") as file:
        return frozenset(LAW.findall(file.read()))


@functools.cache
def all_laws():
    return frozenset().union(*(laws(path) for path in files("crates", ".antt")))


@functools.cache
def items(crate):
    """The functions, types and constants of a crate's code."""
    return frozenset(ITEM.findall("\n".join(read(path) for path in files(os.path.join("crates", crate, "src"), ".rt"))))


@functools.cache
def edits():
    paths = glob.glob(os.path.join(ROOT, "crates", "*", "must-fail", "*.edit"))
    return frozenset("/".join((path.split(os.sep)[-3], os.path.basename(path)[: -len(".edit")])) for path in paths)


@functools.cache
def tests():
    """The names of tests that tests/run knows, by its three groups."""
    groups = re.findall(r'^(?:%s)="([^"]*)"' % "|".join(GROUPS), read("tests", "run"), re.M)
    return frozenset(name for group in groups for name in group.split())


@functools.cache
def programs():
    """Words with lines between them that are no laws: tools, samples, and what the scripts name."""
    scripts = [read(path) for folder in (".ci", "tools", "tests") for path in files(folder) if is_source(path) and not path.endswith(".rs")]
    found = {word for text in scripts for word in re.findall(r"\b[a-z]\w*(?:-\w+)+", text)}
    return frozenset(found | {os.path.splitext(os.path.basename(path))[0] for path in files("tools") + files("samples")})


def is_source(path):
    """Documents and this test name what is not there; captures are bytes."""
    return not path.endswith((".md", ".capture", ".pyc")) and not path.startswith((os.path.join(ROOT, "docs"), os.path.join(ROOT, "tests", "documents")))


@functools.cache
def words():
    """Every word of the sources, file names included."""
    found = set()
    for folder in FOLDERS:
        for path in filter(is_source, files(folder)):
            found.update(re.split(r"\W+", os.path.relpath(path, ROOT)))
            with open(path, encoding="utf-8", errors="replace") as file:
                found.update(re.split(r"\W+", file.read()))
    return frozenset(found | set(crates()) | KIT)


def expanded(path):
    """a/{b,c} as a/b and a/c."""
    choice = re.search(r"\{([^}]*)\}", path)
    if not choice:
        return [path]
    return [name for part in choice.group(1).split(",") for name in expanded(path.replace(choice.group(0), part, 1))]


def exists(path):
    """A file or folder; a word in capitals stands for any name, and the ending of definitions and edits may be left out."""
    pattern = re.sub(r"(?<![A-Za-z0-9_.])[A-Z]{2,}(?![A-Za-z0-9])", "*", path) if not os.path.exists(os.path.join(ROOT, path)) else path
    return all(any(glob.glob(os.path.join(ROOT, name + ending)) for ending in ("", ".antt", ".edit")) for name in expanded(pattern))
