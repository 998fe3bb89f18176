"""judge: lines, JSON and JUnit's XML beside what the second implementation says, of generated captures and of the samples."""
import json
import os
import struct
import tempfile
import xml.etree.ElementTree as ET

from asking import JUDGE, SAMPLES, VERSION, Second, generated, hold, holds, put, read, run, said
from captures import NOP, READ, USUAL, capture

# docs/RULES.md, in a few words.
RULES = {1: "row", 2: "register", 3: "open or idle", 4: "tRFC or tMRD", 5: "tRP", 7: "tRRD", 8: "tRCD", 9: "tRAS", 10: "tWR",
         11: "tWTR", 12: "on the bus", 13: "cut", 14: "refreshes", 15: "sleep"}


def expected(second, name, data):
    """The line up to its words, the status, and the fields for programs."""
    (refusal, rule, value), _ = second(JUDGE, data)
    if refusal:
        return (f"{name}: refused {refusal} place {value}: ", 2, {"status": "refused", "refusal": refusal, "place": value})
    start, = struct.unpack_from("<I", data, 16)
    told = {"events": struct.unpack_from("<I", data, 12)[0], "judged": value}
    if rule:
        cycle, = struct.unpack_from("<I", data, start + 8 * value)
        return (f"{name}: breaks rule {rule} at event {value}, cycle {cycle}: ", 1,
                told | {"status": "broken", "rule": rule, "event": value, "cycle": cycle})
    return f"{name}: clean, {value} events judged", 0, told | {"status": "clean"}


def check():
    second = Second()
    with tempfile.TemporaryDirectory() as folder:
        files = [put(folder, f"{i:03}.capture", data) for i, data in enumerate(generated(3, 300))] + SAMPLES
        wanted = [expected(second, name, read(name)) for name in files]
        lines(folder, files, wanted)
        programs(folder, files, wanted)
        input_too(second, files, wanted)
        recordings(folder, files, wanted)
    second.end()


def lines(folder, files, wanted):
    ended = run("judge", *files)
    said("judge", ended, 2, err="")
    found = ended.stdout.decode().split("\n")
    hold("a line a file", len(found), len(files) + 1)
    for line, (begin, status, told) in zip(found, wanted):
        hold("a line", line[:len(begin)], begin)
        holds(f"words behind {line}", (len(line) > len(begin)) == (status != 0))
        if status == 1:
            holds(f"the rule's words in {line}", RULES[told["rule"]] in line)
    hold("by four processes", run("judge", "-j", "4", *files).stdout, ended.stdout)
    for status in (0, 1):
        some = [name for name, one in zip(files, wanted) if one[1] <= status]
        hold(f"the worst is {status}", run("judge", *some).returncode, status)
    missing = os.path.join(folder, "missing")
    said("a file that is not there", run("judge", missing, files[0]), 3)
    said("a folder", run("judge", folder), 3, f"{folder}: cannot be read: Is a directory\n")


def programs(folder, files, wanted):
    xml = os.path.join(folder, "night.xml")
    missing = os.path.join(folder, "missing")
    ended = run("judge", "--json", "--junit", xml, *files, missing)
    said("judge --json", ended, 3, err="")
    told = json.loads(ended.stdout)
    hold("the version", told["version"], VERSION)
    for name, one, (_, status, fields) in zip(files, told["files"], wanted):
        hold("whether there is a reason", "why" in one, status != 0)
        one.pop("why", None)
        hold("fields", one, {"file": name} | fields)
    hold("a file that is not there", told["files"][-1], {"file": missing, "status": "unreadable", "why": "No such file or directory"})
    suite = ET.parse(xml).getroot()
    broken = sum(status == 1 for _, status, _ in wanted)
    refused = sum(status == 2 for _, status, _ in wanted)
    hold("counts of JUnit", (suite.get("tests"), suite.get("failures"), suite.get("errors")),
         (str(len(files) + 1), str(broken), str(refused + 1)))
    kinds = [{"failure": 1, "error": 2}[one[0].tag] if len(one) else 0 for one in suite]
    hold("cases of JUnit", kinds, [status for _, status, _ in wanted] + [2])


def input_too(second, files, wanted):
    for kind in (0, 1, 2):
        name, (begin, status, _) = next((name, one) for name, one in zip(files, wanted) if one[1] == kind)
        ended = run("judge", "-", given=read(name))
        said("standard input", ended, status)
        hold("standard input", ended.stdout.decode()[:len(begin) - len(name) + 14], begin.replace(name, "standard input"))
    long = bytes(70_000)
    hold("what is too long", second(JUDGE, long)[0][0], 1)
    said("what is too long", run("judge", "-", given=long), 2)


def recordings(folder, files, wanted):
    """Of a capture the same as of a recording; and longer ones, clean, broken behind event 8,000 and refused."""
    some = [(name, one) for name, one in zip(files, wanted) if one[1] < 2][:60]
    ended = run("judge", "--recording", *(name for name, _ in some))
    said("captures as recordings", ended, 1, err="")
    for line, (_, (begin, _, _)) in zip(ended.stdout.decode().split("\n"), some):
        hold("a capture as a recording", line[:len(begin)], begin)
    many = [(i, NOP) for i in range(9_000)]
    long = put(folder, "long.recording", capture(many, USUAL[:13] + [1_000_000]))
    bad = put(folder, "bad.recording", capture(many + [(9_005, READ)], USUAL[:13] + [1_000_000]))
    none = put(folder, "none.recording", capture(many + [(9_000, NOP), (9_000, NOP)], USUAL))
    short = put(folder, "short.recording", b"")
    said("recordings", run("judge", "--recording", long, bad, none, short), 2,
         f"{long}: clean, 9000 events judged\n{bad}: breaks rule 3 at event 9000, cycle 9005: a bank that is open or idle when it must not be\n"
         f"{none}: refused 4 place 9001: an event has pins that do not exist, or a cycle that is too large or does not rise\n"
         f"{short}: refused 1 place 0: it is not as long as it says, or too short\n", "")
    said("a recording is no capture", run("judge", long), 2,
         f"{long}: refused 1 place 0: it is a recording of 9,000 events, and a capture has 8,000 at most; judge --recording takes it\n")
    said("what cannot be mapped", run("judge", "--recording", "-", given=b""), 64, "")
    said("a folder", run("judge", "--recording", folder), 3)
