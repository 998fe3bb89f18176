"""The proved library, asked through pipes: people/ask.c says what stands in them."""
import os
import struct
import subprocess

(VERSION, JUDGE, JUDGE_FILE, CELLS, SCHEDULE, BLANK, WHY, KEPT, OPENINGS, READ_EXPORT, WRITE_EXPORT, PLAY,
 ABLE, JUDGE_RECORDING) = range(1, 15)
EXPLAINS, PLAYS = 1, 2

FILE_CHANGED = -1


class Gone(Exception):
    """The program that asks the library ended, or cannot be started."""


class Unable(Exception):
    """This archive has no call for what is asked."""


class Answer:
    """The packed number taken apart: refusal and rule are 0 where there is none."""

    def __init__(self, number):
        self.refusal = number >> 56
        self.rule = number >> 48 & 0xFF
        self.value = number & 0xFFFFFFFF

    @property
    def clean(self):
        return self.refusal == 0 and self.rule == 0


class Opening:
    """A row that stood open: from its ACTIVE's event on, up to and with another."""

    def __init__(self, bank, row, first, last):
        self.bank, self.row, self.first, self.last = bank, row, first, last


class Archive:
    """One process, for any number of questions."""

    def __init__(self, command):
        try:
            self.process = subprocess.Popen(command, stdin=subprocess.PIPE, stdout=subprocess.PIPE, bufsize=1 << 16)
        except OSError as error:
            raise Gone(f"{command[0]} cannot be started: {error.strerror}") from None
        self._able = None

    def __enter__(self):
        return self

    def __exit__(self, *_):
        try:
            self.process.stdin.close()
        except OSError:
            pass
        self.process.stdout.close()
        self.process.wait()

    # ---- questions and answers

    def _send(self, asked, first=b"", second=b"", *told):
        counts = struct.pack("<3I", asked, len(first), len(second))
        self.process.stdin.write(counts + struct.pack("<3I", *(told + (0, 0, 0))[:3]) + first + second)

    def _receive(self):
        number, length = struct.unpack("<QI", self._take(12))
        return Answer(number), self._take(length)

    def _take(self, length):
        got = self.process.stdout.read(length)
        if len(got) != length:
            raise Gone("the program that asks the library ended without an answer")
        return got

    def _ask(self, *question):
        try:
            self._send(*question)
            self.process.stdin.flush()
        except OSError:
            raise Gone("the program that asks the library takes no question") from None
        return self._receive()

    def _want(self, ability, what):
        if not self.is_able(ability):
            raise Unable(f"this archive cannot {what}")

    def is_able(self, ability):
        if self._able is None:
            self._able = self._ask(ABLE)[0].value
        return bool(self._able & ability)

    # ---- captures

    def version(self):
        number = self._ask(VERSION)[0].value
        return f"{number // 10000}.{number // 100 % 100}.{number % 100}"

    def judge(self, capture):
        return self._ask(JUDGE, capture)[0]

    def judge_files(self, names, recordings, most=64):
        """Of each file in turn its answer, why it cannot be read (0 if it can), the number of its events, and the cycle of the
        broken one. Some questions are sent ahead, so that neither side waits for the other."""
        asked = JUDGE_RECORDING if recordings else JUDGE_FILE
        try:
            waiting = 0
            for name in names:
                self._send(asked, os.fsencode(name))
                waiting += 1
                if waiting == most:
                    self.process.stdin.flush()
                    while waiting > most // 2:
                        yield self._judged_file()
                        waiting -= 1
            self.process.stdin.flush()
        except OSError:
            raise Gone("the program that asks the library takes no question") from None
        for _ in range(waiting):
            yield self._judged_file()

    def _judged_file(self):
        answer, told = self._receive()
        why, events, cycle = struct.unpack("<iII", told)
        return answer, why, events, cycle

    def cells(self, capture):
        answer, told = self._ask(CELLS, capture)
        return answer, numbers(told)

    def blank(self, capture):
        return self._ask(BLANK, capture)

    def why(self, capture):
        """The eight numbers where a rule is broken; else none."""
        self._want(EXPLAINS, "explain faults")
        return numbers(self._ask(WHY, capture)[1])

    def kept(self, capture):
        """The pairs of each READ and WRITE among the judged events."""
        self._want(EXPLAINS, "tell which pairs a burst keeps")
        return numbers(self._ask(KEPT, capture)[1])

    def openings(self, capture):
        """Of a clean capture that has events, bank 0's first."""
        return self.open_row(capture, 0, 0)[1]

    def open_row(self, capture, bank, event):
        """The answer, and all openings."""
        answer, told = self._ask(OPENINGS, capture, b"", bank, event)
        told = numbers(told)
        counts, index, found = told[1:8:2], iter(told[8:]), []
        for bank_, count in enumerate(counts):
            found += [Opening(bank_, next(index), next(index), next(index)) for _ in range(count)]
        return answer, found

    # ---- the bench

    def schedule(self, settings, requests, policy):
        return self._ask(SCHEDULE, words(settings), words(requests), policy)

    def read_export(self, records, settings, edition):
        return self._ask(READ_EXPORT, records, words(settings), edition)

    def write_export(self, capture):
        return self._ask(WRITE_EXPORT, capture)

    def play(self, capture, first, window, writes):
        """The answer, the window afterwards, and the words read."""
        self._want(PLAYS, "play captures")
        answer, told = self._ask(PLAY, capture, words(window + writes), first, len(window))
        told = numbers(told)
        return answer, told[:len(window)], told[len(window):]


def words(values):
    return struct.pack(f"<{len(values)}I", *values)


def numbers(told):
    return list(struct.unpack(f"<{len(told) // 4}I", told))
