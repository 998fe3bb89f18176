#!/usr/bin/env python3
"""What is sent to a client: the packed folder is unpacked in an empty one, as a client would, and everything is done from
there by its pkg-config file, in C99 and in C++17 with warnings as errors.

1. The folder has the files that it should, their checksums hold, and all of them say one version.
2. The header compiles by itself; every function of it is in the manual page and in the archive, and no other. The quick build
   wants memcpy and memset alone from outside, the smallest nothing.
3. The examples, compiled by gcc and by g++: the one that judges says of files and lists of files what document 01 and the
   samples' table say, and of recordings whatever their length; of files that cannot be read or change while they are read it
   says so. The one that schedules writes
   the captures that document 01 and request K7 work out, and says why where there is none.
4. Two threads that call at the same time get what each call answers alone; of both builds.
5. No call of either build takes more stack than the header says: measured, and by its instructions on every path."""
import glob
import hashlib
import os
import pty
import re
import shutil
import struct
import subprocess
import sys
import tempfile

HERE = os.path.dirname(os.path.abspath(__file__))
ROOT = os.path.normpath(os.path.join(HERE, "..", ".."))
sys.dont_write_bytecode = True
sys.path[:0] = [HERE, os.path.join(HERE, "..")]
import elf
import frames
from captures import A10, ACTIVE, LOW, NOP, READ, SLEEPY, USUAL, WRITE, bank, capture, quiet, setting

X86 = os.path.join(ROOT, "tests", "x86")
STRICT = ["-O2", "-Wall", "-Wextra", "-Wpedantic", "-Wconversion", "-Werror"]
LANGUAGES = {"gcc": ["cc", "-std=c99"], "g++": ["c++", "-std=c++17", "-x", "c++"]}
BUILDS = {"quick": "morgazell", "smallest": "morgazell-smallest"}

FILES = ["LICENSE", "SHA256SUMS", "VERSION", "examples/judge_files.c", "examples/play_capture.c", "examples/schedule_requests.c", "include/morgazell.h", "lib/libmorgazell.a",
         "lib/pkgconfig/morgazell.pc", "share/man/man3/morgazell.3"]

wrong = 0


def hold(name, found, expected):
    global wrong
    if found != expected:
        wrong += 1
        print("WRONG %s: %r, not %r" % (name, found, expected))


def read(*path):
    with open(os.path.join(*path), encoding="utf-8") as file:
        return file.read()


# ---- 1: the folder

def unpacked(name, empty):
    """The folder that comes out of the package, beside nothing else."""
    packed = sorted(glob.glob(os.path.join(ROOT, "target", name + "-[0-9]*.tar.gz")))
    newest = max(packed, key=os.path.getmtime)
    subprocess.run(["tar", "--extract", "--file", newest, "--directory", empty], check=True)
    folder, = os.listdir(empty)
    hold("the name of the folder", folder + ".tar.gz", os.path.basename(newest))
    return os.path.join(empty, folder)


def hold_folder(folder):
    there = sorted(os.path.relpath(os.path.join(at, name), folder) for at, _, names in os.walk(folder) for name in names)
    hold("the files", there, sorted(FILES))
    sums = dict(reversed(line.split("  ./")) for line in read(folder, "SHA256SUMS").splitlines())
    for name in there:
        if name != "SHA256SUMS":
            with open(os.path.join(folder, name), "rb") as file:
                hold("the checksum of " + name, sums.get(name), hashlib.sha256(file.read()).hexdigest())
    hold("the number of checksums", len(sums), len(there) - 1)


def pkg_config(folder, *words):
    if not shutil.which("pkg-config"):
        subprocess.run([os.path.join(ROOT, "tests", "install"), "pkg-config"], check=True)
    path = dict(os.environ, PKG_CONFIG_PATH=os.path.join(folder, "lib", "pkgconfig"))
    return subprocess.run(["pkg-config", *words, "morgazell"], check=True, capture_output=True, text=True, env=path).stdout.split()


def hold_version(folder, program):
    version = read(folder, "VERSION").strip()
    hold("pkg-config's version", pkg_config(folder, "--modversion"), [version])
    hold("the manual page's version", '"morgazell %s"' % version in read(folder, "share/man/man3/morgazell.3"), True)
    hold("the example's version", output(program, ["--version"]), (0, "morgazell %s\n" % version, ""))


# Constants of the header, by the letter of document 01 and of the requests.
CONSTANTS = {"REFUSED_LENGTH": 1, "REFUSED_HEADER": 2, "REFUSED_SETTING": 3, "REFUSED_EVENT": 4, "REFUSED_REQUEST": 5,
             "REFUSED_REFRESH": 6, "REFUSED_BUFFER": 7, "REFUSED_BROKEN": 8, "REFUSED_POLICY": 10, "OPEN_ROWS": 0, "CLOSED_ROWS": 1,
             "MOST_EVENTS": 8000, "LONGEST_CAPTURE": 88 + 8 * 8000, "LONGEST_SCHEDULE": 80 + 8 * 8000, "MOST_CELLS": 16 * 8000,
             "MOST_REQUESTS": 2000, "REFUSED_QUESTION": 13, "MOST_INDEX": 3 * 8000, "REFUSED_RECORDS": 11, "REFUSED_EXPORT": 12,
             "MOST_RECORDS": 8000, "LONGEST_EXPORT": 6 * 8000, "REFUSED_PLAY": 15, "MOST_WINDOW": 1 << 14}


def hold_constants(folder, out):
    """The header's constants, and that its version is the archive's, told by a program."""
    named = set(re.findall(r"^#define MORGAZELL_(\w+) ", read(folder, "include", "morgazell.h"), re.M)) - {"VERSION"}
    hold("the constants of the header", named, set(CONSTANTS))
    lines = "".join('    printf("%%ld\\n", (long)MORGAZELL_%s);\n' % name for name in sorted(named))
    source = os.path.join(out, "constants.c")
    with open(source, "w", encoding="utf-8") as file:
        file.write("#include <stdio.h>\n#include <morgazell.h>\nint main(void)\n{\n%s    return morgazell_version() != MORGAZELL_VERSION;\n}\n" % lines)
    program = os.path.join(out, "constants")
    subprocess.run([X86, "cc", *STRICT, *pkg_config(folder, "--cflags"), "-o", program, source, *pkg_config(folder, "--libs")], check=True)
    told = "".join("%d\n" % CONSTANTS[name] for name in sorted(named & set(CONSTANTS)))
    hold("what they are, and the header's version", output(program, []), (0, told, ""))


# ---- 2: header, manual page, archive

def hold_header(folder, allowed):
    header = read(folder, "include", "morgazell.h")
    exported = set(re.findall(r"^uint\w+ (morgazell_\w+)\(", header, re.M))
    helping = set(re.findall(r"^static inline \w+ (morgazell_\w+)\(", header, re.M))
    page = read(folder, "share", "man", "man3", "morgazell.3")
    hold("functions of the manual page", set(re.findall(r"\b(morgazell_\w+)\(", page)), exported | helping)
    data, = elf.members(os.path.join(folder, "lib", "libmorgazell.a"))
    hold("functions of the archive", elf.exported(data), exported)
    hold("what the archive wants", elf.wanted(data) - allowed, set())
    for compiler, language in LANGUAGES.items():
        words = [X86, *language, *STRICT, *pkg_config(folder, "--cflags"), "-fsyntax-only", "-"]
        text = "#include <morgazell.h>\n#include <morgazell.h>\nint main(void) { return morgazell_rule(0) != 0; }\n"
        made = subprocess.run(words if "-x" in words else words[:2] + ["-x", "c"] + words[2:], input=text, capture_output=True, text=True)
        hold("the header by itself, " + compiler, (made.returncode, made.stderr), (0, ""))
    if not shutil.which("groff"):
        subprocess.run([os.path.join(ROOT, "tests", "install"), "groff-base"], check=True)
    shown = subprocess.run(["groff", "-man", "-ww", "-Tutf8", "-z"], input=page.encode(), capture_output=True)
    hold("what groff says of the manual page", (shown.returncode, shown.stderr), (0, b""))


# ---- 3: the example

READ_BACK = [(0, ACTIVE), (3, WRITE), (6, READ)]

CASES = [
    ("case b at cycle 3", capture([(0, ACTIVE), (3, READ)]), 0, "clean, 2 events judged"),
    ("case a: no events", capture([]), 0, "clean, 0 events judged"),
    ("64,080 bytes, the longest capture", quiet(8000), 0, "clean, 8000 events judged"),
    ("64,088 bytes, the longest with 16 settings", quiet(8000, SLEEPY), 0, "clean, 8000 events judged"),
    ("case h at cycle 6 in edition 1", capture(READ_BACK, edition=1), 0, "clean, 3 events judged"),
    ("case h at cycle 6", capture(READ_BACK), 1, "breaks rule 11 at event 2, cycle 6: tWTR is not over"),
    ("case b at cycle 2", capture([(0, ACTIVE), (2, READ)]), 1, "breaks rule 8 at event 1, cycle 2: tRCD is not over"),
    ("case j at cycle 9000", capture([(9000, NOP)]), 1,
     "breaks rule 14 at event 0, cycle 9000: more than eight refreshes are owed"),
    ("tXP is 2", capture([(0, NOP | LOW), (5, NOP), (6, ACTIVE)], SLEEPY), 1,
     "breaks rule 15 at event 2, cycle 6: sleep is entered or left wrongly, or tXP or tXSR is not over"),
    ("an empty file", b"", 2, "refused (1): it is not as long as it says, or no capture is so long"),
    ("a megabyte", quiet(8000) * 16, 2, "refused (1): it is not as long as it says, or no capture is so long"),
    ("thirteen settings", capture([], header=[80, 13, 24, 0, 80, 0]), 2, "refused (2): its header is wrong"),
    ("edition 2", capture(READ_BACK, edition=2), 2, "refused (2): its header is wrong"),
    ("a mode word of latency 4", capture([], setting(3, 0x42)), 2, "refused (3): setting 3, mode word, is out of its range"),
    ("tRC 11 beside tRAS 7 and tRP 3", capture([], setting(7, 11)), 2,
     "refused (3): setting 7, tRC, is out of its range or above tRAS + tRP"),
    ("tXSR 0", capture([], setting(15, 0, SLEEPY)), 2, "refused (3): setting 15, tXSR, is out of its range"),
    ("the second event's pins", capture([(0, NOP), (1, NOP | 1 << 20)]), 2,
     "refused (4): event 1 has pins that do not exist, or a cycle that is too large or does not rise"),
]

TOO_LONG = "refused (1): it is not as long as it says, or no capture is so long"

# Names that would say something of their own, and what is printed of each.
NAMES = {"a\nforged.capture: clean, 2 events judged": r"a\x0aforged.capture: clean, 2 events judged", "a\rb": r"a\x0db",
         "a\x1b[2Kb": r"a\x1b[2Kb", "a\x7fb": r"a\x7fb", "a\\x0ab": r"a\x5cx0ab", "a\u0085b": r"a\xc2\x85b", "a\u2028b": r"a\xe2\x80\xa8b",
         "caf\u00e9 2": "caf\u00e9 2"}


def compiled(folder, compiler, example, out, *more):
    """The example as a client compiles it, by what pkg-config says."""
    source = os.path.join(folder, "examples", example + ".c")
    words = [X86, *LANGUAGES[compiler], *STRICT, *pkg_config(folder, "--cflags"), "-o", out, source, "-x", "none", *more]
    subprocess.run(words + pkg_config(folder, "--libs"), check=True)
    return out


def output(program, words, **more):
    run = subprocess.run([X86, "run", program, *words], capture_output=True, text=True, **more)
    return run.returncode, run.stdout, run.stderr


def hold_cases(program, folder):
    names, lines = [], []
    for number, (name, data, status, said) in enumerate(CASES):
        path = os.path.join(folder, "%d.capture" % number)
        with open(path, "wb") as file:
            file.write(data)
        names.append(path)
        lines.append("%s: %s\n" % (path, said))
        hold(name, output(program, [path]), (status, lines[-1], ""))
    hold("all cases in one call", output(program, names), (2, "".join(lines), ""))
    judged = sum(status < 2 for _, _, status, _ in CASES)
    hold("those that are not refused", output(program, names[:judged]), (1, "".join(lines[:judged]), ""))
    hold("the worst first", output(program, names[::-1]), (2, "".join(lines[::-1]), ""))
    missing = os.path.join(folder, "no such file")
    there = "%s: cannot be read: No such file or directory\n" % missing
    hold("one of them is not there", output(program, [names[0], missing, names[4]]), (3, lines[0] + there + lines[4], ""))
    hold("a folder", output(program, [folder]), (3, "%s: cannot be read: Is a directory\n" % folder, ""))
    hold("a file without end", output(program, ["/dev/zero"]), (2, "/dev/zero: %s\n" % TOO_LONG, ""))
    with open(names[0], "rb") as file:
        piped = subprocess.run(["sh", "-c", 'cat | exec "$0" "$@"', X86, "run", program, "/dev/stdin"], stdin=file, capture_output=True, text=True)
    hold("through a pipe", (piped.returncode, piped.stdout), (0, "/dev/stdin: clean, 2 events judged\n"))
    with open(names[0], "rb") as file:
        hold("standard input by its name", output(program, [names[5], "-"], stdin=file), (1, lines[5] + "-: clean, 2 events judged\n", ""))
    asked = output(program, ["--help"])
    hold("what is asked for help", (asked[0], asked[1].startswith("usage: judge_files FILE .."), asked[2]), (0, True, ""))
    hold("no files", output(program, []), (3, "", asked[1]))
    full = subprocess.run(["sh", "-c", '"$0" "$@" >/dev/full', X86, "run", program, names[0]], capture_output=True, text=True)
    complaint = "judge_files: standard output could not be written to its end; what was printed is not whole\n"
    hold("a full disk", (full.returncode, full.stderr), (3, complaint))


def hold_names(program, folder):
    """A name is told so that it cannot be taken for what the program says."""
    for name, told in NAMES.items():
        path = os.path.join(folder, name)
        with open(path, "wb") as file:
            file.write(CASES[5][1])
        hold("a file of the name %r" % name, output(program, [path]), (1, "%s: %s\n" % (os.path.join(folder, told), CASES[5][3]), ""))


# What only a recording can be: longer than a capture, clean to the end or broken there.
LONG = [
    ("8,001 events", quiet(8001), 0, "clean, 8001 events judged"),
    ("8,001 events with 16 settings", quiet(8001, SLEEPY), 0, "clean, 8001 events judged"),
    ("100,000 events", quiet(100000), 0, "clean, 100000 events judged"),
    ("9,001 events, the last one due for the ninth refresh", capture([(cycle, NOP) for cycle in range(9001)]), 1,
     "breaks rule 14 at event 9000, cycle 9000: more than eight refreshes are owed"),
    ("a recording of 8,001 events and a byte", quiet(8001) + b"x", 2, "refused (1): it is not as long as it says"),
]


def recorded(program, words, **more):
    return output(program, ["--recording", *words], **more)


def hold_recordings(program, folder):
    names, lines = [], []
    for number, (name, data, status, said) in enumerate(CASES + LONG):
        path = os.path.join(folder, "%d.recording" % number)
        with open(path, "wb") as file:
            file.write(data)
        names.append(path)
        lines.append("%s: %s\n" % (path, said.removesuffix(", or no capture is so long")))
        hold(name + ", as a recording", recorded(program, [path]), (status, lines[-1], ""))
    hold("all recordings in one call", recorded(program, names), (2, "".join(lines), ""))
    unmapped = "%s: cannot be mapped: a recording has to be a file, no pipe, folder or device\n"
    hold("a folder as a recording", recorded(program, [folder]), (3, unmapped % folder, ""))
    hold("a device as a recording", recorded(program, ["/dev/zero"]), (3, unmapped % "/dev/zero", ""))
    for stdin in ("/dev/stdin", "-"):
        piped = subprocess.run(["sh", "-c", 'cat "$0" | exec "$@"', names[0], X86, "run", program, "--recording", stdin],
                               capture_output=True, text=True)
        hold("a recording through a pipe", (piped.returncode, piped.stdout), (3, unmapped % stdin))
    missing = os.path.join(folder, "no such file")
    hold("no such recording", recorded(program, [missing]), (3, "%s: cannot be read: No such file or directory\n" % missing, ""))
    hold("no recordings", recorded(program, [])[0], 3)


def hold_changing_recordings(program, folder):
    """Recordings of one page and of many that grow, are cut short or written over while they are judged."""
    path = os.path.join(folder, "changing.recording")
    for data in (CASES[0][1], LONG[2][1]):
        for change in ("1a", "1l", "1t", "1w"):
            with open(path, "wb") as file:
                file.write(data)
            os.utime(path, (0, 0))
            environment = dict(os.environ, CHANGE=change, FILE_TO_CHANGE=path)
            hold("a recording of %d bytes that changes, %s" % (len(data), change), recorded(program, [path], env=environment),
                 (2, path + ": refused: it changed while it was read\n", ""))
        hold("one that does not", recorded(program, [path], env=dict(os.environ, FILE_TO_CHANGE=path))[0] in (0, 2), True)


def said_of_samples():
    """What the table of the samples says of each capture, in the words of the example."""
    for row in re.findall(r"^\| `[^`]*\.capture` .*", read(ROOT, "samples", "README.md"), re.M):
        cells = row.strip("| ").split(" | ")
        report = " ".join(re.findall("`([^`]*)`", cells[-1]))
        yield cells[0].strip("`"), re.sub(r"events \d+ judged (\d+) clean", r"clean, \1 events judged",
                                          re.sub(r".*broken rule (\d+) event (\d+) cycle (\d+)", r"breaks rule \1 at event \2, cycle \3: ",
                                                 re.sub(r"refused (\d) place \d+", r"refused (\1): ", report)))


def hold_samples(program):
    expected = dict(said_of_samples())
    names = sorted(expected)
    status, out, err = output(program, [os.path.join(ROOT, "samples", name) for name in names])
    hold("the samples", (status, err, out.count("\n")), (2, "", len(names)))
    for name, line in zip(names, out.splitlines()):
        said = line.split(": ", 1)[1]
        hold(name, said[:len(expected[name])], expected[name])


def hold_changing(program, folder):
    """A clean file of two events that changes at the first or the second read, by growing, shrinking or in place."""
    path = os.path.join(folder, "changing.capture")
    for change in ("1a", "2a", "1l", "2l", "1t", "2t", "1w", "2w"):
        with open(path, "wb") as file:
            file.write(CASES[0][1])
        os.utime(path, (0, 0))
        environment = dict(os.environ, CHANGE=change, FILE_TO_CHANGE=path)
        hold("a file that changes, " + change, output(program, [path], env=environment), (2, path + ": refused: it changed while it was read\n", ""))
    hold("one that does not", output(program, [os.path.join(folder, "0.capture")], env=dict(os.environ, FILE_TO_CHANGE=path)),
         (0, os.path.join(folder, "0.capture") + ": clean, 2 events judged\n", ""))


# The list of document 01's case m, with the events that request K7 works out for it.
LIST_M = "read 5\nwrite 8388608\nread 0x5\nread 8388608"
READ_5, READ_B1, WRITE_B1, ACTIVE_B1 = READ | 5, READ | bank(1), WRITE | bank(1), ACTIVE | bank(1)
OPEN_M = [(0, ACTIVE), (3, READ_5), (4, ACTIVE_B1), (8, WRITE_B1), (12, READ_5), (14, READ_B1)]
CLOSED_M = [(0, ACTIVE), (3, READ_5 | A10), (4, ACTIVE_B1), (8, WRITE_B1 | A10), (10, ACTIVE), (13, READ_5 | A10),
            (17, ACTIVE_B1), (20, READ_B1 | A10)]
NO_REQUEST = "schedule_requests: line %d is neither `read CELL` nor `write CELL`\n"

NO_SCHEDULES = [
    ("thirteen settings", USUAL[:13], "", 2, "refused (2): a schedule takes fourteen settings\n"),
    ("sixteen settings", SLEEPY, "", 2, "refused (2): a schedule takes fourteen settings\n"),
    ("tRC 11 beside tRAS 7 and tRP 3", setting(7, 11), "", 2, "refused (3): setting 7, tRC, is out of its range or above tRAS + tRP\n"),
    ("tREFI 0", setting(13, 0), "", 2, "refused (3): setting 13, tREFI, is out of its range\n"),
    ("a cell that the part lacks", USUAL, "read 5\nread 33554432\n", 2,
     "refused (5): request 1 asks for a cell that the part lacks, or is one too many\n"),
    ("2,001 requests", USUAL, "read 5\n" * 2001, 2,
     "refused (5): request 2000 asks for a cell that the part lacks, or is one too many\n"),
    ("tREFI 2, nine times", setting(13, 2), "read 5\n" * 9, 2, "refused (6): refresh cannot be kept at request 5\n"),
    ("another word", USUAL, "read 5\nerase 5\n", 3, NO_REQUEST % 2),
    ("another word behind empty lines and a comment", USUAL, "\n# read 5\nread 5\n\nerase 5\n", 3, NO_REQUEST % 5),
    ("a cell of 32 bits", USUAL, "read 2147483648\n", 3, NO_REQUEST % 1),
    ("a long line", USUAL, "read 5" + " " * 99 + "6\n", 3, NO_REQUEST % 1),
    ("a byte 0", USUAL, "read 5\0\n", 3, NO_REQUEST % 1),
    ("a return within a line", USUAL, "read\r5\n", 3, NO_REQUEST % 1),
    ("a setting that is none", ["one"] + USUAL[1:], "", 3, "schedule_requests: setting 0, lane code, is not a number\n"),
    ("a time that is none", USUAL[:6] + ["7ns"] + USUAL[7:], "", 3, "schedule_requests: setting 6, tRAS, is not a number\n"),
    ("a line in place of tRP", USUAL[:5] + ["-"] + USUAL[6:], "", 3, "schedule_requests: setting 5, tRP, is not a number\n"),
]


def run_of(program, words, **more):
    run = subprocess.run([X86, "run", program, *map(str, words)], capture_output=True, **more)
    return run.returncode, run.stdout, run.stderr.decode()


def scheduled(program, policy, settings, lines):
    return run_of(program, [policy, *settings], input=lines.encode())


def hold_terminal(program):
    """No bytes go to a terminal."""
    own, shown = pty.openpty()
    run = subprocess.run([X86, "run", program, "open", *map(str, USUAL)], input=b"", stdout=shown, stderr=subprocess.PIPE)
    os.close(shown)
    complaint = b"schedule_requests: a capture is bytes, and standard output is a terminal; send it to a file\n"
    hold("a terminal", (run.returncode, run.stderr), (3, complaint))
    try:
        hold("what the terminal got", os.read(own, 1), b"")
    except OSError:  # nothing is there, and nobody is left to write
        pass
    os.close(own)


def hold_schedules(program):
    hold("case m, open rows", scheduled(program, "open", USUAL, LIST_M), (0, capture(OPEN_M), ""))
    hold("case m, closed rows", scheduled(program, "closed", USUAL, LIST_M), (0, capture(CLOSED_M), ""))
    hold("standard input by its name", scheduled(program, "open", USUAL + ["-"], LIST_M), (0, capture(OPEN_M), ""))
    written = "# case m\r\n\r\n" + LIST_M.replace("\n", "  # " + "as it stands there " * 9 + "\r\n \t\r\n") + " " * 99 + "\r\n"
    hold("case m with comments, empty lines and lines of Windows", scheduled(program, "open", USUAL, written), (0, capture(OPEN_M), ""))
    hold("no requests", scheduled(program, "open", USUAL, ""), (0, capture([]), ""))
    hold("the longest list", len(scheduled(program, "closed", USUAL, "read 5\n" * 2000)[1]) > 80 + 8 * 4000, True)
    for name, settings, lines, status, said in NO_SCHEDULES:
        hold(name, scheduled(program, "open", settings, lines), (status, b"", said))
    status, asked, complaint = run_of(program, ["--help"])
    hold("what is asked for help", (status, asked.startswith(b"usage: schedule_requests open|closed"), complaint), (0, True, ""))
    hold("a row policy that is none", scheduled(program, "half", USUAL, ""), (3, b"", asked.decode()))
    hold_terminal(program)
    full = subprocess.run(["sh", "-c", '"$0" "$@" >/dev/full', X86, "run", program, "open", *map(str, USUAL)], input=b"", capture_output=True)
    complaint = b"schedule_requests: standard output could not be written to its end; what was written is not whole\n"
    hold("a schedule on a full disk", (full.returncode, full.stderr), (3, complaint))
    folder = os.open(ROOT, os.O_RDONLY)
    unread = subprocess.run([X86, "run", program, "open", *map(str, USUAL)], stdin=folder, capture_output=True)
    os.close(folder)
    hold("requests from a folder", (unread.returncode, unread.stdout), (3, b""))


# ---- the example that plays: request 33's lines, with cells that hold their own numbers

PLAYED_WORDS = ["0x11111111", "0", "0x22222222", "1", "0x33333333", "2", "0x44444444", "3"]
FULL_WORDS = ["0x11111111", "0", "0x22222222", "1", "0x33333333", "6", "0x44444444", "15"]
TWO_LANES = "word 0x00000000\nword 0x00001111\nword 0x00002202\nword 0x00000033\ncell 1 0x00001111\ncell 2 0x00002202\ncell 3 0x00000033\n"
FOUR_LANES = "word 0x00000000\nword 0x11111111\nword 0x22222202\nword 0x33000033\ncell 1 0x11111111\ncell 2 0x22222202\ncell 3 0x33000033\n"
NOT_HELD = ("refused (15): place %d: the window leaves the part, or does not hold a beat of that event, or its words are too few\n")

PLAYS = [
    ("two lanes", 1, ["0", "8"] + PLAYED_WORDS, (0, TWO_LANES, "")),
    ("four lanes", 2, ["0", "8"] + FULL_WORDS, (0, FOUR_LANES, "")),
    ("a mask too few", 1, ["0", "8"] + PLAYED_WORDS[:7], (2, "", NOT_HELD % 1)),
    ("a word too few", 1, ["0", "8"] + PLAYED_WORDS[:6], (2, "", NOT_HELD % 1)),
    ("a window behind", 1, ["2", "8"] + PLAYED_WORDS, (2, "", NOT_HELD % 1)),
    ("a window too far away", 1, ["0xffffffff", "8"] + PLAYED_WORDS, (2, "", NOT_HELD % 0)),
    ("a window too large", 1, ["0", "16385"] + PLAYED_WORDS, (2, "", NOT_HELD % 0)),
    ("a window that leaves the part", 1, ["33554428", "5"], (2, "", NOT_HELD % 0)),
    ("a word that is none", 1, ["0", "8", "x"], (3, "", "play_capture: words and masks are numbers of 32 bits\n")),
    ("a size that is none", 1, ["0", "-8"], (3, "", "play_capture: the first cell and the size are numbers\n")),
]


def hold_plays(program, out):
    """ACTIVE 0, WRITE 3 column 1, READ 7 column 0, by the settings of the cases."""
    for name, lane, words, expected in PLAYS:
        place = os.path.join(out, "played.capture")
        with open(place, "wb") as file:
            file.write(played_capture(lane))
        hold("playing, " + name, output(program, [place] + words), expected)
    hold("playing, no such file", output(program, [os.path.join(out, "none.capture"), "0", "8"]),
         (3, "", "play_capture: the capture cannot be opened\n"))
    status, told, complaint = output(program, [])
    hold("playing nothing", (status, told, complaint.startswith("usage: play_capture")), (3, "", True))


def played_capture(lane):
    settings = [lane, 13, 10, 0x32, 3, 3, 7, 10, 2, 3, 1, 12, 2, 1000]
    events = [(0, 0xC0000), (3, 0x20001), (7, 0xA0000)]
    words = [80 + 8 * len(events), 14, 24, len(events), 80, 0] + settings + [word for event in events for word in event]
    return struct.pack("<%dI" % len(words), *words)


# ---- 4 and 5: threads and stack

def hold_threads(build):
    run = output(os.path.join(ROOT, "target", "c", build, "threads"), [])
    hold("two threads, %s build" % build, (run[0], run[1].splitlines()[-1:]), (0, ["300 rounds in each of two threads, 0 differ"]))


def hold_stack(build, folder):
    header = read(ROOT, "include", "morgazell.h")
    stated = {name: int(most) for name, most in re.findall(r"(morgazell_\w+) (\d+)[,;]", re.sub(r"\n \* ", " ", header))}
    code = frames.functions(X86, os.path.join(ROOT, "target", folder, "lib", "libmorgazell.a"))
    run = output(os.path.join(ROOT, "target", "c", build, "stack"), [])
    measured = {name: int(bytes) for name, bytes in (line.split() for line in run[1].splitlines())}
    hold("functions whose stack is stated", set(stated), set(measured))
    for name in sorted(measured):
        reckoned = frames.deepest(code, name)
        print("%s build, %s: stack %d measured, %d by its instructions, %d stated" % (build, name, measured[name], reckoned, stated[name]))
        hold("the stack of %s is within what is stated" % name, max(measured[name], reckoned) <= stated[name], True)


def main():
    for build in BUILDS:
        subprocess.run([os.path.join(ROOT, "tests", "c", "build"), build], check=True, stdout=subprocess.DEVNULL)
    for build, name in BUILDS.items():
        with tempfile.TemporaryDirectory() as empty, tempfile.TemporaryDirectory() as out:
            folder = unpacked(name, empty)
            hold_folder(folder)
            hold_header(folder, set() if build == "smallest" else {"memcpy", "memset"})
            hold_constants(folder, out)
            for compiler in LANGUAGES:
                program = compiled(folder, compiler, "judge_files", os.path.join(out, "judge_files"))
                hold_version(folder, program)
                hold_cases(program, out)
                hold_names(program, out)
                hold_recordings(program, out)
                hold_samples(program)
                hold_schedules(compiled(folder, compiler, "schedule_requests", os.path.join(out, "schedule_requests")))
                hold_plays(compiled(folder, compiler, "play_capture", os.path.join(out, "play_capture")), out)
            grows = os.path.join(out, "grow.o")
            subprocess.run([X86, "cc", "-std=c99", "-c", "-o", grows, os.path.join(HERE, "grow.c")], check=True)
            wraps = [grows, "-Wl,--wrap=read", "-Wl,--wrap=morgazell_recording"]
            changing = compiled(folder, "gcc", "judge_files", os.path.join(out, "judge_changing"), *wraps)
            hold_changing(changing, out)
            hold_changing_recordings(changing, out)
        hold_threads(build)
        hold_stack(build, name)
    print("package: %d wrong" % wrong)
    return 1 if wrong else 0


sys.exit(main())
