"""The command line: one command, and a word for what is to be done."""
import argparse
import signal
import sys

from .archive import Gone, Unable
from .common import DONE, STOPPED, UNREADABLE, WRONG_USE, Complaint, start
from .facts import Differ
from .files import Unwritable, complain, shown_text, write_out

MOST_NUMBER = 0xFFFFFFFF


class Stopped(BaseException):
    """A signal that asks us to end; what was begun is taken away first."""

    def __init__(self, number):
        super().__init__()
        self.number = number


class Lines(argparse.HelpFormatter):
    """Help of one width, whatever the terminal's."""

    def __init__(self, prog):
        super().__init__(prog, width=100)


class Parser(argparse.ArgumentParser):
    """Wrong use ends with a status of its own: 2 is a refused capture."""

    def __init__(self, **more):
        super().__init__(formatter_class=Lines, **more)

    def error(self, message):
        complain(f"{shown_text(message)}; {self.prog} --help says more")
        sys.exit(WRONG_USE)

    def exit(self, status=0, message=None):
        sys.exit(status)

    def _print_message(self, message, file=None):
        if message:
            write_out(message.encode())


def run(module, name):
    """The work of a word; its module is loaded when the word is called."""
    def work(options):
        import importlib
        return getattr(importlib.import_module("." + module, __package__), name)(options)
    return work


def parser():
    top = Parser(prog="morgazell", description="Judges captures of Mobile DDR memory buses, explains faults, draws them.",
                 epilog="Each word has its own --help, with an example. Ends with 0 clean or done, 1 a rule is broken, "
                        "2 refused, 3 a file that cannot be read or written, 64 wrong use, 70 the library cannot be asked; "
                        "the worst counts.")
    top.add_argument("--version", action="store_true", help="the library's version")
    words = top.add_subparsers(dest="word", metavar="WORD", prog="morgazell")
    for add in (judging_words, drawing_words, text_words, library_words, bench_words):
        add(words)
    return top


def word(words, name, work, what, example, file=None, files=None, output=None):
    one = words.add_parser(name, help=what, description=what[0].upper() + what[1:] + ".", epilog="Example: " + example)
    one.set_defaults(run=work)
    if files:
        one.add_argument("files", nargs=files, metavar="FILE", help="a capture; - is standard input")
    if file:
        one.add_argument("file", metavar="FILE", nargs="?", default="-", help=file + "; - or none: standard input")
    if output:
        one.add_argument("-o", "--output", metavar="FILE", default="-", help=output + "; - or none: standard output")
    return one


def judging_words(words):
    one = word(words, "judge", run("judging", "judge"), "a verdict a line on each capture", "morgazell judge night/*.capture",
               files="+")
    one.add_argument("--json", action="store_true", help="JSON in place of lines")
    one.add_argument("--junit", metavar="FILE", help="JUnit's XML into FILE besides")
    one.add_argument("--recording", action="store_true", help="the files are recordings, of any number of events")
    one.add_argument("-j", "--jobs", type=jobs, default=1, metavar="N", help="so many processes at a time, 1 to 64")
    one = word(words, "inspect", run("inspecting", "inspect"), "a page for each capture, and an overview",
               'morgazell inspect --part "MT46H64M16LF -5 CL3" -o pages a.capture', files="*")
    one.add_argument("-o", "--output", metavar="DIR", default="inspection", help="the folder of the pages; inspection")
    one.add_argument("--part", metavar="NAME", help='name and grade of the part on the board, or "list"')
    one.add_argument("--pdf", action="store_true", help="PDF besides, by weasyprint or chromium")
    one = word(words, "margins", run("converting", "show_margins"), "how much room a clean capture leaves in each time",
               "morgazell margins --parts a.capture", files="+")
    one.add_argument("--parts", action="store_true", help="and which parts of the table it would pass")


def drawing_words(words):
    word(words, "picture", run("converting", "show_picture"), "the picture of a fault as SVG",
         "morgazell picture a.capture > a.svg", file="a capture", output="the picture")
    one = word(words, "vcd", run("converting", "to_vcd"), "a capture as a waveform, with wires of one bit",
               "morgazell vcd a.capture > a.vcd", file="a capture", output="the value change dump")
    one.add_argument("--gtkwave", action="store_true", help="with vectors, rows and words, for GTKWave")


def text_words(words):
    word(words, "text", run("converting", "to_text"), "a capture as text that a person would type",
         "morgazell text a.capture > a.txt", file="a capture", output="the text")
    word(words, "capture", run("converting", "to_capture"), "such text as a capture", "morgazell capture a.txt -o a.capture",
         file="text", output="the capture")


def library_words(words):
    word(words, "blank", run("converting", "blank"), "a capture with its addresses blanked",
         "morgazell blank a.capture -o b.capture", file="a capture", output="the blanked capture")
    word(words, "cells", run("converting", "cells"), "the cells of the kept beats of a clean capture, a line each",
         "morgazell cells a.capture", file="a clean capture", output="the cells")
    one = word(words, "open-rows", run("converting", "open_rows"), "which rows of a clean capture were open when",
               "morgazell open-rows --bank 2 --event 100 a.capture", file="a clean capture")
    one.add_argument("--bank", type=number, metavar="N", help="this bank alone, after the event of --event")
    one.add_argument("--event", type=number, metavar="N", help="by its number, from 0")
    one.add_argument("--judged", action="store_true", help="of a broken capture, the events before the broken one")
    word(words, "export", run("converting", "to_export"), "a capture as records of a handheld analyser",
         "morgazell export a.capture -o a.records", file="a capture", output="the records")


def bench_words(words):
    one = word(words, "import", run("bench", "from_export"), "records of a handheld analyser as a capture",
               "morgazell import --settings board.txt a.records -o a.capture", file="records", output="the capture")
    settings(one)
    one.add_argument("--edition", type=number, metavar="N", help="0 or 1; none: as in the settings")
    one = word(words, "schedule", run("bench", "schedule"),
               "a clean capture that serves requests, `read 5` or `write 8388608` a line",
               'morgazell schedule --part "MT46H64M16LF -5 CL3" requests.txt -o a.capture', file="requests as text",
               output="the capture")
    settings(one)
    one.add_argument("--policy", choices=("open", "closed"), default="open",
                     help="whether rows stay open behind their bursts; open")
    one = word(words, "play", run("bench", "play"),
               "a clean capture played against a window of cells: the words read, then the window",
               "morgazell play --zeros 64 --writes words.txt a.capture", file="a clean capture", output="the lines")
    one.add_argument("--first", type=number, default=0, metavar="CELL", help="the first cell of the window; 0")
    one.add_argument("--window", metavar="FILE", help="its words as text")
    one.add_argument("--zeros", type=window, default=0, metavar="N", help="or so many words of 0")
    one.add_argument("--writes", metavar="FILE", help="words to write as text, each with its mask behind it")
    word(words, "month", run("bench", "month"), "the month in numbers: a line for each capture of the files, and the totals",
         "morgazell month night/*.capture", files="+")


def settings(one):
    which = one.add_mutually_exclusive_group(required=True)
    which.add_argument("--settings", metavar="FILE", help="settings as text, or a capture that has them")
    which.add_argument("--part", metavar="NAME", help="those of a part's sheet; morgazell inspect --part list names them")


def number(given):
    value = int(given, 0) if given[:2].lower() == "0x" else int(given)
    if not 0 <= value <= MOST_NUMBER or not given.isascii():
        raise argparse.ArgumentTypeError(f"0 to {MOST_NUMBER}")
    return value


def window(given):
    if number(given) > 20_000:
        raise argparse.ArgumentTypeError("16,384 at most")
    return number(given)


def jobs(given):
    if not 1 <= number(given) <= 64:
        raise argparse.ArgumentTypeError("1 to 64")
    return number(given)


def version():
    with start() as archive:
        write_out(f"morgazell {archive.version()}\n".encode())
    return DONE


def stop(number_, _frame):
    raise Stopped(number_)


def main(arguments):
    for one in (signal.SIGTERM, signal.SIGHUP):
        signal.signal(one, stop)
    try:
        top = parser()
        options = top.parse_args(arguments)
        if options.version:
            return version()
        if options.word is None:
            top.error("a WORD is missing")
        return options.run(options)
    except Complaint as error:
        return ended(error.status, str(error))
    except Unwritable as error:
        return ended(UNREADABLE, str(error))
    except (Differ, Gone, Unable) as error:
        return ended(STOPPED, f"{error}; nothing was written")
    except KeyboardInterrupt:
        return ended(128 + signal.SIGINT, "interrupted")
    except Stopped as error:
        return ended(128 + error.number, "stopped")


def ended(status, said):
    complain(said)
    return status
