"""What goes wrong around the command: names, full disks, interrupts, closed outputs, terminals, a library that is not there.
Nothing is half-written, nothing reaches a line or a page unescaped, and the status says what happened."""
import glob
import json
import os
import pty
import resource
import signal
import stat
import subprocess
import tempfile
import time
import xml.etree.ElementTree as ET

from asking import COMMAND, ROOT, environment, hold, holds, put, read, run, said
from drawings import Page

SAMPLE = os.path.join(ROOT, "samples", "tWTR.capture")
CLEAN = os.path.join(ROOT, "samples", "clean-power-down.capture")
NAMES = [b"new\nline.capture", b"quo\"te'.capture", b"<script>alert(1)<script>.capture", b"back\\slash.capture", b"esc\x1b[31m.capture",
         b"\xff\xfe.capture", "\u202egnp.capture".encode(), b"-dash.capture", b"$(id) `id`;.capture", "Gr\u00fc\u00dfe.capture".encode(),
         b"a&amp;b.capture", b"tab\t\r.capture", b".hidden", b"\xe2\x80\xa8line.capture"]


def check():
    with tempfile.TemporaryDirectory() as folder:
        os.chdir(folder)
        names(folder)
        full(folder)
        interrupted(folder)
        outputs(folder)
        libraries()
        terminals(folder)
        uses()
        os.chdir(ROOT)


def leftovers(folder):
    return glob.glob(os.path.join(folder, "**", ".morgazell-*"), recursive=True)


# ---- names

def names(folder):
    for kind, sample in (("broken", SAMPLE), ("clean", CLEAN)):
        here = os.path.join(folder, kind)
        os.mkdir(here)
        for name in NAMES:
            put(os.fsencode(here), name, read(sample))
    files = [os.path.join(os.fsencode(kind), name) for kind in ("broken", "clean") for name in NAMES] + [b"missing\n\x1b[0m"]
    ended = subprocess.run(COMMAND + ["judge", "--junit", "n.xml", "--"] + files, capture_output=True, env=environment())
    said("names", ended, 3, err="")
    lines = ended.stdout.split(b"\n")
    hold("a line a name", len(lines), len(files) + 1)
    holds("nothing that a terminal obeys", all(sign >= " " and sign.isprintable() or sign == "\n" for sign in ended.stdout.decode()))
    for name, line in zip(files, lines):
        holds(f"{name} can be told", line.startswith(back_and_forth(name) + b": "))
    told = json.loads(subprocess.run(COMMAND + ["judge", "--json", "--"] + files, capture_output=True, env=environment()).stdout)
    hold("names in JSON", [one["file"].encode() for one in told["files"]], [back_and_forth(name) for name in files])
    hold("names in XML", [one.get("name").encode() for one in ET.parse("n.xml").getroot()], [back_and_forth(name) for name in files])
    ended = subprocess.run(COMMAND + ["inspect", "-o", "pages", "--"] + files, capture_output=True, env=environment())
    said("pages of such names", ended, 3, "", "morgazell: missing\\x0a\\x1b[0m cannot be read: No such file or directory\n")
    pages = sorted(os.listdir("pages"))
    hold("a page each, and an overview", len(pages), 2 * len(NAMES) + 1)
    for page in pages:
        holds(f"{page} is plain", page.isascii() and all(sign.isalnum() or sign in "._-" for sign in page) and not page.startswith("."))
        text = read(os.path.join("pages", page)).decode()
        Page(page, text)
        holds(f"{page}: nothing unescaped", "<script" not in text and "\x1b" not in text and "\u202e" not in text)
    complaint = subprocess.run(COMMAND + ["text", b"no\nsuch\x1b"], capture_output=True, env=environment()).stderr
    hold("in a complaint", complaint, b"morgazell: no\\x0asuch\\x1b cannot be read: No such file or directory\n")


def back_and_forth(name):
    """As files.shown says: every byte that cannot be seen as \\x and two digits."""
    text = name.decode("utf-8", "surrogateescape")
    hidden = lambda sign: ord(sign) < 32 or sign in "\x7f\\\u202e\u2028" or 0xDC80 <= ord(sign) <= 0xDCFF
    return "".join("".join(f"\\x{byte:02x}" for byte in sign.encode("utf-8", "surrogateescape")) if hidden(sign) else sign
                   for sign in text).encode()


# ---- full disks

def no_room():
    resource.setrlimit(resource.RLIMIT_FSIZE, (1000, 1000))


def full(folder):
    for words in (["judge", SAMPLE], ["text", SAMPLE], ["picture", SAMPLE], ["vcd", SAMPLE], ["blank", SAMPLE], ["cells", CLEAN],
                  ["--version"], ["judge", "--help"], ["month", SAMPLE], ["margins", CLEAN], ["open-rows", CLEAN], ["export", SAMPLE]):
        with open("/dev/full", "wb") as out:
            ended = subprocess.run(COMMAND + words, stdout=out, stderr=subprocess.PIPE, env=environment())
        said(f"{words[0]} to a full disk", subprocess.CompletedProcess(words, ended.returncode, b"", ended.stderr), 3, "",
             "morgazell: standard output cannot be written to its end: No space left on device\n")
    put(folder, "there.svg", "as it was")
    for words in (["picture", SAMPLE, "-o", "there.svg"], ["text", SAMPLE, "-o", "new.txt"], ["inspect", "-o", "full", SAMPLE],
                  ["blank", SAMPLE, "-o", "new.capture"], ["judge", "--junit", "new.xml"] + [SAMPLE] * 20):
        ended = subprocess.run(COMMAND + words, capture_output=True, env=environment(), preexec_fn=no_room)
        said(f"{words[0]} into a file that has no room", ended, 3)
        holds("it is said", b"cannot be written: File too large" in ended.stderr)
    hold("what was there is there", read("there.svg"), b"as it was")
    hold("nothing else is", [os.path.exists(name) for name in ("new.txt", "new.capture", "new.xml", "full/tWTR.capture.html")], [False] * 4)
    hold("nor half of it", leftovers(folder), [])


# ---- interrupts

def interrupted(folder):
    for number, pause in ((signal.SIGINT, .15), (signal.SIGTERM, .3), (signal.SIGTERM, .6), (signal.SIGHUP, .9), (signal.SIGINT, 1.2)):
        process = subprocess.Popen(COMMAND + ["inspect", "-o", "cut"] + [SAMPLE] * 4000, stdout=subprocess.PIPE, stderr=subprocess.PIPE,
                                   env=environment())
        time.sleep(pause)
        process.send_signal(number)
        _, err = process.communicate()
        # a signal while Python itself starts is Python's own affair
        if b"morgazell: " in err:
            hold("the status of a signal", process.returncode, 128 + number)
        holds("it ended", process.returncode != 0)
        hold("no half of a page", leftovers(folder), [])
        pages = glob.glob(os.path.join("cut", "*.html"))
        holds("every page is whole", all(read(page).endswith(b"</body></html>\n") for page in pages))


# ---- outputs that are no plain file

def outputs(folder):
    closed = lambda words, how: subprocess.run(["sh", "-c", f'exec "$0" "$@" {how}'] + COMMAND + words, capture_output=True, env=environment())
    ended = closed(["judge", SAMPLE], ">&-")
    said("standard output closed", ended, 3)
    said("standard error closed", closed(["judge", "missing"], "2>&-"), 3, "missing: cannot be read: No such file or directory\n")
    said("standard input closed", closed(["text"], "<&-"), 3, "", "morgazell: standard input cannot be read: Bad file descriptor\n")
    piped = subprocess.run(["sh", "-c", '"$0" "$@" | head -n 1'] + COMMAND + ["text", CLEAN], capture_output=True, env=environment())
    hold("a pipe that is closed early", piped.stdout, b"edition 0\n")
    holds("no traceback", b"Traceback" not in piped.stderr and b"Exception ignored" not in piped.stderr)
    put(folder, "real.txt", "before")
    os.chmod("real.txt", 0o640)
    os.symlink("real.txt", "link.txt")
    said("through a link", run("text", SAMPLE, "-o", "link.txt"), 0, "", "")
    hold("the link stays, and the mode", (os.path.islink("link.txt"), stat.S_IMODE(os.stat("real.txt").st_mode)), (True, 0o640))
    holds("the file behind it is new", read("real.txt").startswith(b"edition 0\n"))
    said("a device", run("text", SAMPLE, "-o", "/dev/null"), 0, "", "")
    holds("it is a device still", stat.S_ISCHR(os.stat("/dev/null").st_mode))
    said("a device that is full", run("text", SAMPLE, "-o", "/dev/full"), 3, "", "morgazell: /dev/full cannot be written: No space left on device\n")
    said("no such folder", run("text", SAMPLE, "-o", "none/x.txt"), 3, "", "morgazell: none/x.txt cannot be written: No such file or directory\n")
    said("a file for a folder", run("inspect", "-o", "real.txt", SAMPLE), 3, "", "morgazell: real.txt cannot be written: File exists\n")
    said("a folder for a file", run("text", SAMPLE, "-o", folder), 3, "")


# ---- a library that is not there

def libraries():
    for ask, complaint in (("/nowhere/ask", "/nowhere/ask cannot be started: No such file or directory; nothing was written"),
                           ("/bin/false", None), ("/bin/true", None), ("/bin/echo\nnothing but a line", None)):
        for words in (["judge", SAMPLE], ["inspect", "-o", "gone", SAMPLE], ["text", SAMPLE], ["--version"]):
            ended = run(*words, MORGAZELL_ASK=ask)
            said(f"{ask}: {words[0]}", ended, 70, "", complaint and f"morgazell: {complaint}\n")
            holds("one line is said of it", ended.stderr.startswith(b"morgazell: ") and ended.stderr.count(b"\n") == 1)
    hold("no page", glob.glob("gone/*"), [])
    said("nobody says what asks", run("judge", SAMPLE, MORGAZELL_ASK=""), 70, "")


# ---- terminals

def on_terminal(words, both=True):
    """What a terminal shows; standard output may be a pipe."""
    first, second = pty.openpty()
    process = subprocess.Popen(COMMAND + words, stdin=subprocess.DEVNULL, stdout=second if both else subprocess.DEVNULL, stderr=second, env=environment())
    os.close(second)
    shown = b""
    try:
        while piece := os.read(first, 1 << 16):
            shown += piece
    except OSError:
        pass
    os.close(first)
    return process.wait(), shown


def terminals(folder):
    status, shown = on_terminal(["judge"] + [SAMPLE] * 200)
    hold("status", status, 1)
    holds("a progress line, and it is cleared", b"\r64 of 200 files" in shown and shown.rstrip().endswith(b"tWTR is not over"))
    status, shown = on_terminal(["judge"] + [SAMPLE] * 200, both=False)
    holds("nothing is left of it", b"\r192 of 200 files\r\x1b[K" in shown)
    hold("no progress elsewhere", run("judge", *[SAMPLE] * 200).stderr, b"")
    for words in (["blank", SAMPLE], ["export", SAMPLE]):
        status, shown = on_terminal(words)
        hold("bytes are kept from a terminal", (status, shown[:37]), (3, b"morgazell: standard output is a termi"))


def uses():
    for words in ([], ["bogus"], ["judge"], ["judge", "-j", "0", SAMPLE], ["judge", "-j", "x", SAMPLE], ["text", "a", "b"], ["--nonsense"],
                  ["open-rows", "--bank", "-1"], ["inspect"], ["margins"], ["judge", "\n\x1b", "--bogus\x1b"]):
        ended = run(*words)
        said(f"wrong use {words}", ended, 64, "")
        holds("said in a line", ended.stderr.startswith(b"morgazell: ") and ended.stderr.count(b"\n") == 1 and b"\x1b" not in ended.stderr)
