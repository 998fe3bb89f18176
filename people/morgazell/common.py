"""What the words of the command share: statuses, complaints, files that are captures."""
import os

from . import words
from .archive import Archive
from .files import Unreadable, Whole, all_bytes, keep_from_terminal, shown, write

DONE, BROKEN, REFUSED, UNREADABLE, WRONG_USE, STOPPED = 0, 1, 2, 3, 64, 70
NOTHING = "nothing was written"


class Complaint(Exception):
    """What stops a command, and the status that it ends with."""

    def __init__(self, status, said):
        super().__init__(said)
        self.status = status


def start():
    """The program that asks the library; tools/morgazell and the installed command name it, a word a line."""
    command = os.environ.get("MORGAZELL_ASK", "")
    if not command:
        raise Complaint(STOPPED, "MORGAZELL_ASK does not say what asks the library: call morgazell as it was installed, "
                                 "or tools/morgazell")
    return Archive(command.split("\n"))


def name_of(name):
    return "standard input" if name == "-" else shown(name)


def whole(name):
    try:
        return Whole(name)
    except Unreadable as error:
        raise Complaint(UNREADABLE, f"{name_of(name)} cannot be read: {error}") from None


def whole_bytes(name):
    try:
        return all_bytes(name)
    except Unreadable as error:
        raise Complaint(UNREADABLE, f"{name_of(name)} cannot be read: {error}") from None


def whole_text(name):
    data = whole_bytes(name)
    try:
        return data.decode()
    except UnicodeDecodeError as error:
        line = data.count(b"\n", 0, error.start) + 1
        column = error.start - data.rfind(b"\n", 0, error.start)
        raise Complaint(REFUSED, f"{name_of(name)}: line {line}, column {column}: this is no text; {NOTHING}") from None


def accepted(archive, name):
    """The file, if its bytes are a capture."""
    file = whole(name)
    answer = archive.judge(file.bytes)
    if answer.refusal:
        why = words.refused(file.bytes, file.size, answer)
        raise Complaint(REFUSED, f"{name_of(name)}: refused {answer.refusal} place {answer.value}: {why}; {NOTHING}")
    return file, answer


def clean(archive, name):
    file, answer = accepted(archive, name)
    if answer.rule:
        raise Complaint(BROKEN, f"{name_of(name)}: breaks rule {answer.rule} at event {answer.value}: "
                                f"{words.BROKEN[answer.rule]}; {NOTHING}")
    return file


def put(name, data):
    """Bytes to a file, or to standard output where that is no terminal."""
    if name == "-":
        keep_from_terminal()
    write(name, data)
