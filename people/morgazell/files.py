"""Files: their names on a line, their bytes, and new ones that are whole or not there."""
import os
import stat
import sys

# One byte more than the longest capture, so that a longer file is seen to be too long.
ROOM = 64_089


class Unreadable(Exception):
    """A file that cannot be read, or that changed while it was."""


class Unwritable(Exception):
    """A file, or standard output, that cannot be written."""


def shown(name):
    """A file's name as it may stand on a line: control characters, line breaks and backslashes as \\x and two digits a byte,
    and so is every byte that is no character."""
    if name.__class__ is str and name.isascii() and name.isprintable() and "\\" not in name:
        return name
    text = os.fsencode(name).decode("utf-8", "surrogateescape")
    return "".join(escaped(sign) if unseen(sign) else sign for sign in text)


def unseen(sign):
    code = ord(sign)
    return code < 0x20 or 0x7F <= code < 0xA0 or sign in "\\\u2028\u2029" or turns(code) or 0xD800 <= code < 0xE000


def turns(code):
    """Signs that make a terminal or a page write from right to left, or that are not seen."""
    return 0x200B <= code <= 0x200F or 0x202A <= code <= 0x202E or 0x2060 <= code <= 0x2069 or code in (0x61C, 0xFEFF)


def escaped(sign):
    return "".join(f"\\x{byte:02x}" for byte in sign.encode("utf-8", "surrogateescape"))


def shown_text(text):
    """Words that quote what a person typed or what a file has: a line, and nothing that a terminal obeys."""
    return "".join(escaped(sign) if unseen(sign) and sign != "\\" else sign for sign in text)


# ---- reading

class Whole:
    """As much of a file as can matter to the judge, its length, and the SHA-256 of all of it."""

    def __init__(self, name):
        self.name = name
        try:
            with opened(name) as file:
                self._read(file)
        except OSError as error:
            raise Unreadable(error.strerror) from None

    def _read(self, file):
        import hashlib
        digest, self.size, pieces = hashlib.sha256(), 0, []
        before = os.fstat(file.fileno())
        while piece := file.read(1 << 16):
            digest.update(piece)
            if self.size < ROOM:
                pieces.append(piece)
            self.size += len(piece)
        hold_unchanged(before, os.fstat(file.fileno()), self.size)
        self.bytes = b"".join(pieces)[:ROOM]
        self.digest = digest.hexdigest()


def opened(name):
    return open(0, "rb", closefd=False) if name == "-" else open(name, "rb")


def hold_unchanged(before, after, size):
    if not stat.S_ISREG(after.st_mode):
        return
    if (before.st_size, before.st_mtime_ns) != (after.st_size, after.st_mtime_ns) or size > after.st_size:
        raise Unreadable("it changed while it was read")


def all_bytes(name):
    """A text, or records: the whole of it."""
    try:
        with opened(name) as file:
            before = os.fstat(file.fileno())
            data = file.read()
            hold_unchanged(before, os.fstat(file.fileno()), len(data))
            return data
    except OSError as error:
        raise Unreadable(error.strerror) from None


# ---- writing

def write(name, data):
    """Written beside and renamed: the file is whole, or as it was. `-` is standard output; what is no file, a device or a
    pipe, is written to."""
    if name == "-":
        return write_out(data)
    place = os.path.realpath(name)
    try:
        if os.path.exists(place) and not os.path.isfile(place):
            with open(place, "wb", buffering=0) as file:
                write_to(file.fileno(), data)
        else:
            replace(place, data)
    except OSError as error:
        raise Unwritable(f"{shown(name)} cannot be written: {error.strerror}") from None
    return None


def replace(place, data):
    """An interrupt may come anywhere: what was begun is taken away, and what was done stays done."""
    beside = os.path.join(os.path.dirname(place), f".morgazell-{os.urandom(8).hex()}")
    try:
        number = os.open(beside, os.O_WRONLY | os.O_CREAT | os.O_EXCL | os.O_CLOEXEC, 0o600)
        try:
            write_to(number, data)
            os.fchmod(number, mode_of(place))
            os.fsync(number)
        finally:
            os.close(number)
        os.replace(beside, place)
    except BaseException:
        try:
            os.unlink(beside)
        except OSError:
            pass
        raise


def mode_of(place):
    """As the file that is there has it, or as new files are to have it."""
    if os.path.exists(place):
        return stat.S_IMODE(os.stat(place).st_mode)
    now = os.umask(0)
    os.umask(now)
    return 0o666 & ~now


def write_to(number, data):
    data = memoryview(data)
    while data:
        data = data[os.write(number, data):]


def write_out(data):
    try:
        write_to(1, data)
    except OSError as error:
        raise Unwritable(f"standard output cannot be written to its end: {error.strerror}") from None


def complain(said):
    """On standard error, as far as there is one."""
    try:
        write_to(2, f"morgazell: {shown_text(said)}\n".encode("utf-8", "backslashreplace"))
    except OSError:
        pass


def keep_from_terminal():
    """Bytes on a terminal are of no use, and may do harm there."""
    if sys.stdout is not None and sys.stdout.isatty():
        raise Unwritable("standard output is a terminal, and these are bytes: name a file with -o, or send them on")
