"""What every program does with its arguments: no FILE or `-` is standard input, one FILE is that file, --help and --version print
and end; of anything else it complains, prints nothing and reads nothing."""
import os
import re
import subprocess
import tempfile

from running import program

ROOT = os.path.join(os.path.dirname(os.path.abspath(__file__)), "..")

# Arguments that are refused, the one that the complaint names, and what it says of it.
WRONG = [
    (["--csv"], "--csv", "is no option here, see --help"),
    (["-h"], "-h", "is no option here, see --help"),
    (["--"], "--", "is no option here, see --help"),
    (["--helper"], "--helper", "is no option here, see --help"),
    (["--help", "--help"], "--help", "is no option here, see --help"),
    (["--help", "FIRST"], "--help", "is no option here, see --help"),
    (["FIRST", "--version"], "--version", "is no option here, see --help"),
    (["FIRST", "SECOND"], "SECOND", "is one file too many, see --help"),
    (["-", "-"], "-", "is one file too many, see --help"),
    (["FIRST", "-"], "-", "is one file too many, see --help"),
    (["-", "SECOND"], "SECOND", "is one file too many, see --help"),
    (["FIRST", "SECOND", "--help"], "SECOND", "is one file too many, see --help"),
    (["FIRST", ""], "a name that is empty or too long", "is one file too many, see --help"),
]

# What stands alone.
ALONE = [["--help"], ["--version"]]


def version():
    with open(os.path.join(ROOT, "crates", "version", "specs", "Version.antt"), encoding="utf-8") as file:
        return ".".join(re.search(r"^version = numbered (\d+) (\d+) (\d+)$", file.read(), re.M).groups())


class Trial:
    """One program, with a capture and what it prints of it, and another that stands on standard input. A program that takes two
    files is given the first, which is called SETTINGS, before all other arguments. One with an option has it."""

    def __init__(self, name, undone, data, printed, other, printed_of_other, first=None, option=None):
        self.name, self.undone, self.data, self.printed = name, undone, data, printed
        self.other, self.printed_of_other = other, printed_of_other
        self.first, self.option = first, option
        self.count, self.wrong = 0, 0

    def words(self, arguments):
        return arguments if self.first is None or arguments in ALONE else ["SETTINGS"] + arguments

    def run(self, arguments, folder):
        """What it printed, and how much of standard input it read."""
        with tempfile.TemporaryFile() as source:
            source.write(self.other)
            source.seek(0)
            words = program(self.name) + self.words(arguments)
            run = subprocess.run(words, stdin=source, capture_output=True, cwd=folder, timeout=60)
            return run.stdout, run.stderr, os.lseek(source.fileno(), 0, os.SEEK_CUR)

    def hold(self, arguments, folder, out, err, read=0):
        found = self.run(arguments, folder)
        self.count += 1
        if found != (out, err, read):
            self.wrong += 1
            print(f"WRONG {self.name} {arguments!r:.200}: {found!r:.600}, not {(out, err, read)!r:.600}")

    def complains(self, arguments, folder, what):
        self.hold(arguments, folder, b"", f"{self.name}: {what}; {self.undone}\n".encode(errors="surrogateescape"))

    # ---- what is asked

    def reads(self, folder):
        whole = len(self.other)
        self.hold([], folder, self.printed_of_other, b"", whole)
        self.hold(["-"], folder, self.printed_of_other, b"", whole)
        for path in ("FIRST", "./FIRST", os.path.join(folder, "FIRST"), "a name with spaces, \u00e9", "./-first"):
            with open(os.path.join(folder, path), "wb") as file:
                file.write(self.data)
            self.hold([path], folder, self.printed, b"")

    def prints(self, folder):
        self.hold(["--version"], folder, f"{self.name} {version()}\n".encode(), b"")
        out, err, read = self.run(["--help"], folder)
        self.count += 1
        names = "[FILE]" if self.first is None else "SETTINGS [FILE]"
        if self.option:
            names += f" [{self.option}]"
        said = out.startswith(f"usage: {self.name} {names}\n".encode()) and b"--help" in out and b"--version" in out
        if not said or err or read:
            self.wrong += 1
            print(f"WRONG {self.name} --help: {out!r} {err!r}, {read} bytes read")

    def refuses(self, folder):
        """FIRST and SECOND are pipes without a writer, so that a program that opens one waits for ever."""
        for pipe in ("FIRST", "SECOND"):
            os.mkfifo(os.path.join(folder, pipe))
        for arguments, named, said in WRONG:
            if self.option in arguments:
                continue
            self.complains(arguments, folder, f"{named} {said}")

    # ---- files that are not to be had

    def lacks(self, folder):
        os.mkdir(os.path.join(folder, "sub"))
        self.complains(["none"], folder, "none could not be opened: there is no such file")
        self.complains([""], folder, "a name that is empty or too long could not be opened: there is no such file")
        self.complains(["n" * 300], folder, "n" * 300 + " could not be opened")
        self.complains(["./" * 2048 + "n"], folder, "a name that is empty or too long could not be opened")
        self.complains(["./" * 2048], folder, "./" * 2048 + " could not be opened")
        self.complains(["./" * 2047 + "n"], folder, "./" * 2047 + "n could not be opened: there is no such file")
        self.complains(["line\nline\t\x1b[31m\x7f"], folder, "line?line??[31m? could not be opened: there is no such file")
        with open(os.path.join(folder, "na\udcefve"), "wb"):
            self.complains(["na\udcefve"], folder, "na\udcefve could not be opened: its name is not UTF-8")
        self.complains(["sub"], folder, "sub could not be read: it is a folder")
        self.complains(["/proc/self/mem"], folder, "/proc/self/mem could not be read to its end")
        with open(os.path.join(folder, "locked"), "wb") as file:
            os.chmod(file.fileno(), 0)
        if os.geteuid():  # whom the system lets read everything tries this by tests/faults alone
            self.complains(["locked"], folder, "locked could not be opened: it may not be read")

    def all(self):
        for part in (self.reads, self.prints, self.refuses, self.lacks):
            with tempfile.TemporaryDirectory() as folder:
                if self.first is not None:
                    with open(os.path.join(folder, "SETTINGS"), "wb") as file:
                        file.write(self.first)
                part(folder)
        return self.count, self.wrong


def tried(*trial, **more):
    return Trial(*trial, **more).all()
