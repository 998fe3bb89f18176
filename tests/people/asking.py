"""What the tests of the command share: the second implementation, asked by the tests themselves; generated captures; the
command, run over it; and expectations, counted."""
import glob
import os
import struct
import subprocess
import sys

HERE = os.path.dirname(os.path.abspath(__file__))
ROOT = os.path.normpath(os.path.join(HERE, "..", ".."))
sys.dont_write_bytecode = True
sys.path[:0] = [os.path.join(ROOT, "people"), os.path.join(ROOT, "tests")]

ANSWERS = os.path.join(ROOT, "target", "cargo", "release", "answers")
SAMPLES = sorted(glob.glob(os.path.join(ROOT, "samples", "*.capture")))
VERSION = "4.2.0"
(JUDGE, CELLS, SCHEDULE, BLANK, WHY, KEPT, OPENINGS, READ_EXPORT, WRITE_EXPORT, PLAY) = (2, 4, 5, 6, 7, 8, 9, 10, 11, 12)

held = wrong = 0


def hold(name, found, expected):
    global held, wrong
    held += 1
    if found != expected:
        wrong += 1
        if wrong < 40:
            print("WRONG %s:\n    %.600r\nnot %.600r" % (name, found, expected))


def holds(name, truth):
    hold(name, bool(truth), True)


def build():
    subprocess.run(["cargo", "build", "--quiet", "--offline", "--release", "--bin", "answers"], cwd=os.path.join(ROOT, "tests", "second"), check=True)


class Second:
    """Questions to the second implementation, or to another program that speaks as it does; a refusal or a rule is a number."""

    def __init__(self, command=(ANSWERS,)):
        self.process = subprocess.Popen(command, stdin=subprocess.PIPE, stdout=subprocess.PIPE)

    def __call__(self, asked, first, second=b"", *numbers):
        head = struct.pack("<6I", asked, len(first), len(second), *(numbers + (0, 0, 0))[:3])
        self.process.stdin.write(head + first + second)
        self.process.stdin.flush()
        number, length = struct.unpack("<QI", self.process.stdout.read(12))
        return (number >> 56, number >> 48 & 255, number & 0xFFFFFFFF), self.process.stdout.read(length)

    def end(self):
        self.process.stdin.close()
        self.process.stdout.close()
        return self.process.wait()


def words_of(data):
    return list(struct.unpack(f"<{len(data) // 4}I", data))


def bytes_of(*words):
    return struct.pack(f"<{len(words)}I", *words)


def generated(seed, count):
    stream = subprocess.run([ANSWERS, "generate", str(seed), str(count)], stdout=subprocess.PIPE, check=True).stdout
    at, found = 0, []
    while at < len(stream):
        length, = struct.unpack_from("<I", stream, at)
        found.append(stream[at + 4:at + 4 + length])
        at += 4 + length
    return found


def read(name):
    with open(name, "rb") as file:
        return file.read()


def put(folder, name, data):
    path = os.path.join(folder, name)
    with open(path, "wb") as file:
        file.write(data if isinstance(data, bytes) else data.encode())
    return path


def environment(**more):
    return os.environ | {"MORGAZELL_ASK": ANSWERS, "MORGAZELL_MONTH": ANSWERS + "\nmonth", "MORGAZELL_VERSION": VERSION,
                         "PYTHONPATH": os.path.join(ROOT, "people"), "PYTHONDONTWRITEBYTECODE": "1"} | more


COMMAND = [sys.executable, "-S", "-m", "morgazell"]


def run(*words, given=b"", cwd=None, **more):
    """The command over the second implementation."""
    return subprocess.run(COMMAND + list(words), input=given, capture_output=True, cwd=cwd, env=environment(**more))


def said(name, ended, status, out=None, err=None):
    """Its status, and its outputs where they are given."""
    hold(f"{name}: status", ended.returncode, status)
    if out is not None:
        hold(f"{name}: output", ended.stdout.decode(), out)
    if err is not None:
        hold(f"{name}: complaint", ended.stderr.decode(), err)
    holds(f"{name}: no traceback", b"Traceback" not in ended.stderr)
