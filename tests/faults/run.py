#!/usr/bin/env python3
"""Runs the programs with opens, reads and writes that fail. Where all can be read and written, they have to print the right
text, or write the right capture or export, and no complaint; where standard input or a file that was named fails, nothing and
a complaint, and of a month the lines of the captures before; where standard output fails, what is right up to some byte, and a
complaint.

`stub.c` fails each open, read and write in turn, in every way; the rest are failures that systems have: a connection that is
reset, a pipe that is nearly full, a disk that is, and streams that are closed.

    tests/faults/run.py [PROGRAM ..]     all programs, or these"""
import errno
import fcntl
import functools
import os
import resource
import socket
import struct
import subprocess
import sys
import tempfile

HERE = os.path.dirname(os.path.abspath(__file__))
ROOT = os.path.join(HERE, "..", "..")
sys.path[:0] = [os.path.join(HERE, ".."), os.path.join(HERE, "..", "listing")]
import openrows
import rendering
from captures import ACTIVE, LOW, NOP, READ, SLEEPY, USUAL, blanked, capture, export, setting
from running import program

STUB = os.path.join(ROOT, "target", "faults", "stub.so")
SETTINGS = os.path.join(ROOT, "target", "faults", "settings")
INPUT, OUTPUT, ERRORS, FILE_READ, FILE_OPENED = 0, 1, 2, 3, 4

CLEAN = [(0, ACTIVE), (3, READ)]
BROKEN = [(12, ACTIVE), (13, READ), (20, NOP)]
ASLEEP = [(0, NOP | LOW), (5, NOP), (6, ACTIVE)]
ADDRESSED = capture([(0, ACTIVE | 77), (3, READ | 5)])
REFUSED = capture([], setting(1, 15))
FAR = [(5, NOP), (65_600, NOP)]
# Behind a capture that is played: cells 0 to 3, and what they hold.
PLAYED = struct.pack("<6I", 0, 4, 7, 8, 9, 10)

# Each program on each capture, and what is right.
RUNS = [
    ("report", capture(CLEAN), b"events 2\njudged 2\nclean\n"),
    ("report", capture(BROKEN), b"events 3\njudged 1\nbroken rule 8 event 1 cycle 13\n"),
    ("report", REFUSED, b"refused 3 place 1\n"),
    ("listing", capture(CLEAN), rendering.clean(CLEAN, USUAL).encode()),
    ("listing", capture(BROKEN), rendering.broken(BROKEN, USUAL, 8, 1).encode()),
    ("listing", capture(ASLEEP, SLEEPY), rendering.broken(ASLEEP, SLEEPY, 15, 2).encode()),
    ("listing", REFUSED, rendering.refused(REFUSED, 3, 1).encode()),
    ("blank", ADDRESSED, blanked(ADDRESSED)),
    ("openings", capture(CLEAN), openrows.text(CLEAN).encode()),
    ("openings", capture(BROKEN), b"refused 8 place 1\n"),
    ("play", capture(CLEAN) + PLAYED, b"words 4\nword 0x00000007\nword 0x00000008\nword 0x00000009\nword 0x0000000a\n"
     b"cell 0 0x00000007\ncell 1 0x00000008\ncell 2 0x00000009\ncell 3 0x0000000a\n"),
    ("play", capture(BROKEN) + PLAYED, b"refused 8 place 1\n"),
    ("to_export", capture(FAR), export(FAR)),
    ("from_export", export(CLEAN), capture(CLEAN)),
    ("month", capture(CLEAN) + capture(BROKEN) + REFUSED,
     b"capture 0 events 2 judged 2 clean read 4 written 0 bus 4 over 6\n"
     b"capture 1 events 3 judged 1 broken rule 8 event 1 cycle 13 read 0 written 0 bus 0 over 0\n"
     b"capture 2 events 0 judged 0 refused 3 place 1 read 0 written 0 bus 0 over 0\n"
     b"all captures 3 clean 1 broken 1 refused 1 events 5 judged 3 read 4 written 0 bus 4 over 6\n"),
]

# What each program does with its input and its output.
DONE = {"report": ("judged", "printed"), "listing": ("judged", "printed"), "blank": ("written", "written"),
        "openings": ("looked at", "printed"), "play": ("played", "printed"), "to_export": ("written", "written"), "from_export": ("written", "written"),
        "month": ("added up", "printed")}

# Each line of a month is one write. Those that were printed before a read failed stand; its totals are not printed.
GOES_ALONG = "month"

# A file that a program is given before any other; how often it is opened and, in pieces of 40 bytes, read.
BEFORE = {"from_export": ([SETTINGS], 1, 3)}
NONE_BEFORE = ([], 0, 0)

# How a call fails: with what, how often in a row, and whether the program has to go on. 0 is a call that moves one byte.
WAYS = [
    ("an error", errno.EIO, 1, False),
    ("would block", errno.EAGAIN, 1, False),
    ("interrupted for ever", errno.EINTR, 1 << 30, False),
    ("interrupted once", errno.EINTR, 1, True),
    ("one byte", 0, 1, True),
]

# How an open fails, and what is said of it. Descriptors that are used up and a device that is not there are other errors. An
# open that is interrupted is made again by std, for as long as that lasts: 2^64 times, of which a pipe holds the notes of 60,000.
OPENS = [
    (errno.ENOENT, 1, "could not be opened: there is no such file"),
    (errno.EACCES, 1, "could not be opened: it may not be read"),
    (errno.EMFILE, 1, "could not be opened"),
    (errno.ENXIO, 1, "could not be opened"),
    (errno.EINTR, 1, None),
    (errno.EINTR, 999, None),
    (errno.EINTR, 60_000, None),
]

held = []


def expect(holds, what, run):
    held.append(holds)
    if not holds:
        print(f"WRONG {what}: {run.stdout!r} {run.stderr!r}")


def unread(name, source, said="could not be read to its end"):
    undone = "there are no totals" if name == GOES_ALONG else f"nothing was {DONE[name][0]}"
    return f"{name}: {source} {said}; {undone}\n".encode()


def unwritten(name, printed):
    return f"{name}: standard output could not be written to its end; what was {printed} is not whole\n".encode()


def expect_right(what, text, run):
    expect(run.stdout == text and run.stderr == b"", what, run)


def expect_nothing(what, complaint, run):
    expect(run.stdout == b"" and run.stderr == complaint, what, run)


def expect_unread(what, name, complaint, text, run, least=0):
    """Nothing; of a month whole lines, at least so many, and not the last. How many there are."""
    if name != GOES_ALONG:
        expect_nothing(what, complaint, run)
        return 0
    lines = text.splitlines(True)
    there = run.stdout.count(b"\n")
    expect(run.stdout == b"".join(lines[:there]) and least <= there < len(lines) and run.stderr == complaint, what, run)
    return there


def expect_start(what, name, text, run, printed=None):
    """Some of the text and not all."""
    starts = run.stdout != text and text.startswith(run.stdout)
    expect(starts and run.stderr == unwritten(name, printed or DONE[name][1]), what, run)


def expect_start_or_all(what, name, text, run):
    if run.stdout == text:
        expect_right(what, text, run)
    else:
        expect_start(what, name, text, run)


# ---- ways to run a program

@functools.cache
def alone(name, preload=""):
    """What tools/run runs, asked once, since the programs are started some thousand times."""
    environment = dict(os.environ, SHOW="1", PRELOAD=preload)
    return subprocess.run(program(name), env=environment, stdout=subprocess.PIPE, text=True, check=True).stdout.splitlines()


def command(name, preload=""):
    return alone(name, preload) + BEFORE.get(name, NONE_BEFORE)[0]


def given(words, source, **streams):
    """A run of a command with the file behind a descriptor as standard input."""
    os.lseek(source, 0, os.SEEK_SET)
    streams = {"stdout": subprocess.PIPE, **streams}
    return subprocess.run(words, stdin=source, stderr=subprocess.PIPE, timeout=60, **streams)


def changed(name, source, descriptor, at, error, times, piece=0, arguments=()):
    """A run with the stub, and how many calls it changed."""
    noted, note = os.pipe()
    asked = {"FD": descriptor, "AT": at, "ERRNO": error, "TIMES": times, "PIECE": piece, "NOTE": note}
    environment = dict(os.environ, **{"FAULT_" + key: str(value) for key, value in asked.items()})
    words = alone(name, STUB) if any(word.startswith("--") for word in arguments) else command(name, STUB)
    run = given([*words, *arguments], source, env=environment, pass_fds=[note])
    os.close(note)
    with open(noted, "rb") as notes:
        return run, len(notes.read())


def printed(run, reading):
    """The run with what was read behind its standard output."""
    return subprocess.CompletedProcess(run.args, run.returncode, reading, run.stderr)


# ---- every call in turn

def every_read(name, source, size, text, path=None, behind=0):
    """Of standard input, or of the file that is named, while another capture stands on standard input; behind so many reads of
    another file. Pieces of 40 bytes: a read fails before the first, between two, and in place of the end."""
    arguments, descriptor = ([path], FILE_READ) if path else ([], INPUT)
    fail_each_read(name, source, size, text, arguments, descriptor, path or "standard input", behind)


def fail_each_read(name, source, size, text, arguments, descriptor, told, behind=0):
    for way, error, times, goes_on in WAYS:
        at, count, lines = behind, 1, 0
        while count:
            run, count = changed(name, source, descriptor, at, error, times, 40, arguments)
            what = f"{name}, read {at} of {size} bytes of {told}, {way}"
            if goes_on or not count:
                expect_right(what, text, run)
            else:
                lines = expect_unread(what, name, unread(name, told), text, run, lines)
            at += 1
        expect(at - 1 - behind > size / 40, f"{name}, {way}: {at - 1} reads of {size} bytes", run)


def every_open(name, source, text, path, arguments, behind=0):
    for error, times, said in OPENS:
        run, count = changed(name, source, FILE_OPENED, behind, error, times, arguments=arguments)
        what = f"{name}, an open that fails with {error}, {times} times"
        if said:
            expect_nothing(what, unread(name, path, said), run)
        else:
            expect_right(what, text, run)
        expect(count == (times if error == errno.EINTR else 1), f"{what}: {count} calls changed", run)


def every_write(name, source, text, piece, arguments=(), printed=None):
    for way, error, times, goes_on in WAYS:
        at, count, before = 0, 1, -1
        while count:
            run, count = changed(name, source, OUTPUT, at, error, times, piece, arguments)
            what = f"{name}, write {at} of {text.splitlines()[-1]!r}, {way}"
            if goes_on or not count:
                expect_right(what, text, run)
            else:
                expect_start(what, name, text, run, printed)
                expect(before < len(run.stdout), what + ": no more than before", run)
                before = len(run.stdout)
            at += 1
        enough = at - 1 == text.count(b"\n") if name == GOES_ALONG and not piece else at > 5
        expect(enough, f"{name}, {way}: {at - 1} writes of {text.splitlines()[-1]!r}", run)


def complaint_goes_on(name):
    """A folder cannot be read; the complaint is interrupted, or goes out a byte first."""
    folder = os.open(HERE, os.O_RDONLY)
    for way, error, times, goes_on in WAYS:
        if goes_on:
            run, count = changed(name, folder, ERRORS, 0, error, times)
            expect_nothing(f"{name}, the complaint, {way}", unread(name, "standard input"), run)
            expect(count == 1, f"{name}, the complaint, {way}: {count} calls changed", run)
    os.close(folder)


# ---- failures that systems have

def reset(name, data, text, pair, kind):
    """The peer closes while something sent to it is unread: what it sent arrives, one read fails, and then comes the end."""
    ours, theirs = pair
    theirs.sendall(b"never read")
    ours.recv(1)
    ours.sendall(data)
    ours.close()
    run = subprocess.run(command(name), stdin=theirs, capture_output=True, timeout=60)
    theirs.close()
    what = f"{name}, {kind} reset behind {len(data)} bytes"
    expect_unread(what, name, unread(name, "standard input"), text, run, text.count(b"\n") - 1)


def connection():
    with socket.create_server(("127.0.0.1", 0)) as server:
        theirs = socket.create_connection(server.getsockname())
        return server.accept()[0], theirs


def nearly_full_pipe(name, source, text, room):
    reading, writing = os.pipe()
    size = fcntl.fcntl(writing, fcntl.F_SETPIPE_SZ, 4096)
    os.set_blocking(writing, False)
    os.write(writing, b"." * (size - room))
    run = given(command(name), source, stdout=writing)
    os.close(writing)
    with open(reading, "rb") as pipe:
        run = printed(run, pipe.read()[size - room:])
    expect_start_or_all(f"{name}, a pipe with room for {room} of {len(text)} bytes", name, text, run)


def nearly_full_disk(name, source, text, room):
    """A limit on the size of files: a write goes as far as it, and the next fails."""
    def limit():
        resource.setrlimit(resource.RLIMIT_FSIZE, (room, room))
    with tempfile.TemporaryFile() as f:
        run = given(command(name), source, stdout=f, preexec_fn=limit, restore_signals=False)
        f.seek(0)
        run = printed(run, f.read())
    what = f"{name}, a file that takes {room} of {len(text)} bytes"
    expect_start(what, name, text, run)
    expect(len(run.stdout) == room, what + ": not all that it takes", run)


def full_and_closed(name, source, text, arguments=()):
    """Where standard output is closed, a file that is named may be opened in its place; it is not written."""
    words = [*command(name), *arguments]
    with open("/dev/full", "wb") as full:
        run = given(words, source, stdout=full)
    expect_start(f"{name}, /dev/full", name, text, printed(run, b""))
    run = given(["sh", "-c", 'exec "$0" "$@" >&-'] + words, source)
    expect_start(f"{name}, standard output closed", name, text, run)


def everything(name, data, text):
    reset(name, data, text, socket.socketpair(), "a socket pair")
    reset(name, data, text, connection(), "a connection")
    with tempfile.TemporaryFile() as f:
        f.write(data)
        f.flush()
        source = f.fileno()
        every_read(name, source, len(data), text)
        every_write(name, source, text, 1 if len(text) < 100 else 0)
        if name == GOES_ALONG:
            every_write(name, source, text, 50)
        for room in range(0, len(text) + 2, len(text) // 30 + 1):
            nearly_full_pipe(name, source, text, room)
        for room in range(0, len(text), len(text) // 10):
            nearly_full_disk(name, source, text, room)
        full_and_closed(name, source, text)


def named(name, data, text):
    """The file that is named, with another capture on standard input; and what --help and --version print."""
    with tempfile.NamedTemporaryFile() as f, tempfile.TemporaryFile() as other:
        f.write(data)
        f.flush()
        other.write(capture(ASLEEP[:1], SLEEPY))
        other.flush()
        source = other.fileno()
        _, opens, reads = BEFORE.get(name, NONE_BEFORE)
        every_read(name, source, len(data), text, f.name, reads)
        every_open(name, source, text, f.name, [f.name], opens)
        full_and_closed(name, source, text, [f.name])
        run = given(["sh", "-c", 'exec "$0" "$@" <&-'] + command(name) + [f.name], source)
        expect_right(f"{name}, a file while standard input is closed", text, run)
        f.seek(0)
        expect(f.read() == data, f"{name}, the file is as it was", run)
        for option, piece in (("--help", 50), ("--version", 1)):
            said = given([*alone(name), option], source).stdout
            every_write(name, source, said, piece, [option], "printed")


def settings_file(name, data, text):
    """The file that is named before, with what is to be converted on standard input."""
    with tempfile.TemporaryFile() as f:
        f.write(data)
        f.flush()
        fail_each_read(name, f.fileno(), len(capture([])), text, [], FILE_READ, SETTINGS)
        every_open(name, f.fileno(), text, SETTINGS, [])


def main():
    os.makedirs(os.path.dirname(STUB), exist_ok=True)
    with open(SETTINGS, "wb") as file:
        file.write(capture([]))
    subprocess.run([os.path.join(ROOT, "tests", "x86"), "library", "-o", STUB, os.path.join(HERE, "stub.c")], check=True)
    names = sys.argv[1:] or DONE
    for name, data, text in RUNS:
        if name in names:
            everything(name, data, text)
    for name in names:
        first = next(run for run in RUNS if run[0] == name)
        complaint_goes_on(name)
        named(*first)
        if name in BEFORE:
            settings_file(*first)
    print(f"faults: {len(held)} expectations, {held.count(False)} wrong")
    return 0 if all(held) else 1


sys.exit(main())
