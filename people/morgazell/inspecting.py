"""The word `inspect`: a page for each file, and an overview."""
import datetime
import os
import shutil
import subprocess
import tempfile

from . import page
from .common import DONE, STOPPED, UNREADABLE, WRONG_USE, Complaint, name_of, start
from .files import Unreadable, Whole, complain, shown, write, write_out
from .judging import STATUS
from .parts import all_parts, part_named

NO_PDF = "--pdf wants Debian's weasyprint or chromium; the pages are written"


def inspect(options):
    if options.part == "list":
        write_out("".join(f"{part.name}\n" for part in all_parts()).encode())
        return DONE
    part = named_part(options.part)
    if not options.files:
        raise Complaint(WRONG_USE, "inspect wants a FILE, or --part list")
    worst, sheets = pages(options, part, moment())
    write(os.path.join(options.output, "index.html"), page.overview(sheets, moment()).encode())
    if options.pdf:
        for _, link in sheets:
            if link:
                as_pdf(os.path.join(options.output, link))
    return worst


def pages(options, part, now):
    """The worst status, and each file's sheet with the name of its page; of one that cannot be read its name and none."""
    worst, sheets = DONE, []
    make_folder(options.output)
    with start() as archive:
        for name, link in zip(options.files, page_names(options.files)):
            try:
                sheet = page.Sheet(archive, Whole(name), part, now)
            except Unreadable as error:
                complain(f"{name_of(name)} cannot be read: {error}")
                worst = UNREADABLE
                sheets.append((page.Unread(name, str(error)), None))
                continue
            write(os.path.join(options.output, link), sheet.html().encode())
            sheets.append((sheet, link))
            worst = max(worst, next(status for status, kind in STATUS.items() if kind == sheet.kind))
    return worst, sheets


def make_folder(name):
    try:
        os.makedirs(name, exist_ok=True)
    except OSError as error:
        raise Complaint(UNREADABLE, f"{shown(name)} cannot be written: {error.strerror}") from None


def named_part(name):
    if name is None:
        return None
    part = part_named(name)
    if part is None:
        raise Complaint(WRONG_USE, f"no part is called {shown(name)}; morgazell inspect --part list names them")
    return part


def moment():
    return datetime.datetime.now(datetime.timezone.utc).strftime("%Y-%m-%d %H:%M UTC")


def page_names(files):
    """A page's name is its file's, with letters that a browser and every file system take, and a number where two are alike."""
    taken = {"index.html"}
    for name in files:
        base = "".join(sign if plain(sign) else "_" for sign in os.path.basename(name))
        base = base.lstrip(".-")[:200] or "capture"
        number, link = 1, f"{base}.html"
        while link.lower() in taken:
            number += 1
            link = f"{base}-{number}.html"
        taken.add(link.lower())
        yield link


def plain(sign):
    return sign.isascii() and (sign.isalnum() or sign in "._-")


def as_pdf(html):
    """By weasyprint or chromium, whichever is there."""
    pdf = html[:-len(".html")] + ".pdf"
    with tempfile.TemporaryDirectory() as folder:
        made = os.path.join(folder, "page.pdf")
        command = printer(html, folder, made)
        none = subprocess.DEVNULL
        ended = subprocess.run(command, stdin=none, stdout=none, stderr=none, check=False)
        if ended.returncode != 0 or not os.path.exists(made):
            raise Complaint(STOPPED, f"{command[0]} made no PDF of {shown(html)}; the pages are written")
        with open(made, "rb") as file:
            write(pdf, file.read())


def printer(html, folder, made):
    if shutil.which("weasyprint"):
        return ["weasyprint", os.path.abspath(html), made]
    if shutil.which("chromium"):
        return ["chromium", "--headless", "--no-sandbox", "--disable-gpu", f"--user-data-dir={folder}", "--no-pdf-header-footer",
                f"--print-to-pdf={made}", "file://" + os.path.abspath(html)]
    raise Complaint(STOPPED, NO_PDF)
