#!/usr/bin/env python3
"""Recordings of many events, judged by the example that maps them. They are made of schedules one behind another, with their
cycles moved on: with fourteen settings and edition 0, the refreshes that are owed stand between them; with sixteen and
edition 1, sleep does too, power-down and self refresh in turn. Every event keeps the rules, so a recording is clean; a READ or
WRITE among the last hundred events that comes a cycle early breaks rule 8 there; and where the last event has pins that do
not exist besides, the recording is refused for it.

    python3 tests/recordings/run.py [EVENTS]     100,000, which is what the gate asks; 20,000,000 is a second of a board's time"""
import array
import os
import struct
import subprocess
import sys
import tempfile
import time

HERE = os.path.dirname(os.path.abspath(__file__))
ROOT = os.path.normpath(os.path.join(HERE, "..", ".."))
sys.dont_write_bytecode = True
sys.path.insert(0, os.path.join(HERE, ".."))
from captures import AUTO_REFRESH, LOW, NOP, READ, SLEEPY, WRITE, events_at, setting, words

X86 = os.path.join(ROOT, "tests", "x86")
OUT = os.path.join(ROOT, "target", "recordings")
LAST_CYCLE = 2_000_000_000
T_RCD, T_RFC, T_REFI, T_XP, T_XSR = 4, 11, 13, 14, 15

# Behind the last command of a schedule every row is closed by then.
REST = 60

# An event as one number: the cycle in its lower half, so that it is moved on by adding.
PINS = 1 << 32


def example(name):
    """An example, compiled as a client compiles it, over the archive that was built."""
    made = os.path.join(OUT, name)
    archive = os.path.join(ROOT, "target", "morgazell")
    subprocess.run([X86, "compile", "-I", archive + "/include", "-o", made, os.path.join(ROOT, "examples", name + ".c"),
                    archive + "/lib/libmorgazell.a"], check=True)
    return made


def schedules(program, settings):
    """The events of some schedules with closed rows, each over before a refresh is due."""
    for seed in (1, 7919, 104729):
        requests = "".join("%s %d\n" % ("write" if i * seed % 3 == 0 else "read", i * seed * 4099 % (1 << 25)) for i in range(900))
        data = subprocess.run([X86, "run", program, "closed", *map(str, settings[:14])], input=requests.encode(), check=True,
                              capture_output=True).stdout
        events = array.array("Q", data[events_at(data):])
        if events[-1] % PINS >= 7 * settings[T_REFI] or any(event // PINS == AUTO_REFRESH for event in events):
            raise SystemExit("a schedule is too long for this test")
        yield events


class Between:
    """What stands between two schedules: where the next one may begin, and the events up to there."""

    def __init__(self, settings):
        self.settings, self.clock, self.paid, self.turn = settings, 0, 0, 0

    def refreshed(self, cycle):
        """Refreshes until none is owed: one is for each multiple of tREFI since the clock began."""
        events = []
        while self.paid < (cycle - self.clock) // self.settings[T_REFI]:
            events.append(cycle + AUTO_REFRESH * PINS)
            self.paid += 1
            cycle += self.settings[T_RFC]
        return cycle, events

    def slept(self, cycle):
        """Power-down and self refresh in turn; the clock begins again where self refresh ends."""
        if len(self.settings) == 14:
            return cycle, []
        self.turn += 1
        into, wait = (NOP, T_XP) if self.turn % 2 else (AUTO_REFRESH, T_XSR)
        if into == AUTO_REFRESH:
            self.clock, self.paid = cycle + 40, 0
        events = [cycle + (into | LOW) * PINS, cycle + 5 + (NOP | LOW) * PINS, cycle + 40 + NOP * PINS]
        return cycle + 40 + self.settings[wait], events

    def events(self, cycle):
        cycle, refreshes = self.refreshed(cycle + REST)
        cycle, sleep = self.slept(cycle)
        return cycle, array.array("Q", refreshes + sleep)


def write(path, settings, edition, pieces, count):
    """Writes the recording, and answers its last events."""
    start = 24 + 4 * len(settings)
    between, cycle, left, last = Between(settings), 0, count, array.array("Q")
    with open(path, "wb") as file:
        file.write(words([start + 8 * count, len(settings), 24, count, start, edition]) + words(settings))
        while left > 0:
            piece = pieces[left % len(pieces)]
            events = array.array("Q", [event + cycle for event in piece])
            cycle, more = between.events(events[-1] % PINS)
            events = (events + more)[:left]
            file.write(events.tobytes())
            left, last = left - len(events), (last + events)[-200:]
    if last[-1] % PINS > LAST_CYCLE:
        raise SystemExit("the last cycle is too large")
    return last


def early(last, settings, count):
    """The place of a READ or WRITE among the last hundred events that comes tRCD behind the ACTIVE before it; the event a cycle
    sooner."""
    for back in range(2, 100):
        event, before = last[-back], last[-back - 1]
        if event // PINS & 0xE0000 in (READ, WRITE) and (event - before) % PINS == settings[T_RCD] > 1:
            return count - back, event - 1
    raise SystemExit("no event to move")


def patch(path, place, event, start):
    with open(path, "r+b") as file:
        file.seek(start + 8 * place)
        file.write(struct.pack("<Q", event))


def judged(program, path):
    began = time.time()
    run = subprocess.run([X86, "run", program, "--recording", path], capture_output=True, text=True)
    return (run.returncode, run.stdout.removeprefix(path + ": "), run.stderr), time.time() - began


def hold(name, program, path, expected):
    found, seconds = judged(program, path)
    print("%s: %s%.1f s" % (name, found[1].replace("\n", "; "), seconds))
    if found != expected:
        print("WRONG, not %r" % (expected,))
    return found != expected


def recording(name, programs, settings, edition, count, folder):
    judge, schedule = programs
    path, start = os.path.join(folder, name + ".recording"), 24 + 4 * len(settings)
    last = write(path, settings, edition, list(schedules(schedule, settings)), count)
    place, event = early(last, settings, count)
    wrong = hold(name, judge, path, (0, "clean, %d events judged\n" % count, ""))
    began = time.time()
    subprocess.run(["cat", path], stdout=subprocess.DEVNULL, check=True)
    print("%s, by cat: %.1f s" % (name, time.time() - began))
    patch(path, place, event, start)
    wrong += hold(name + ", an event early", judge, path,
                  (1, "breaks rule 8 at event %d, cycle %d: tRCD is not over\n" % (place, event % PINS), ""))
    patch(path, count - 1, last[-1] | 1 << 63, start)
    wrong += hold(name + ", pins that do not exist", judge, path,
                  (2, "refused (4): event %d has pins that do not exist, or a cycle that is too large or does not rise\n" % (count - 1), ""))
    os.remove(path)
    return wrong


def main():
    count = int(sys.argv[1]) if len(sys.argv) > 1 else 100_000
    os.makedirs(OUT, exist_ok=True)
    subprocess.run([os.path.join(ROOT, "tools", "archive")], check=True, stdout=subprocess.DEVNULL)
    programs = example("judge_files"), example("schedule_requests")
    with tempfile.TemporaryDirectory(dir=OUT) as folder:
        wrong = recording("fourteen settings", programs, setting(T_REFI, 20_000), 0, count, folder)
        wrong += recording("sixteen settings, edition 1", programs, setting(T_REFI, 20_000, SLEEPY), 1, count, folder)
    print("recordings: %d wrong" % wrong)
    return 1 if wrong else 0


sys.exit(main())
