"""A memory controller that keeps the rules of docs/RULES.md, to make captures of plausible traffic.

Every command goes out at the first cycle that the rules leave to it, or later. The controller runs every burst to its end
except where it ends a read by BURST TERMINATE, and it waits tRC from ACTIVE to AUTO REFRESH as well, which some data
sheets ask for and the rules do not. Between frames it may put the part to sleep. One that interrupts does what edition 1
allows besides: it cuts a write short by a READ or PRECHARGE as soon as one pair of it is in."""
import random

from captures import (A10, ACTIVE, AUTO_REFRESH, BURST_TERMINATE, DESELECT, LOW, MODE_REGISTER_SET, NOP, PRECHARGE, READ,
                      WRITE, bank, burst_length, cas_latency, column)

BANKS = range(4)


class Controller:
    def __init__(self, part, seed, refreshes_every=None, interrupts=False):
        self.part = part
        self.random = random.Random(seed)
        self.events = []
        self.mode = part["mode"]
        self.next = 20  # the first cycle that is free on the command pins
        self.ready = 0  # tRFC and tMRD are over, and tXP or tXSR
        self.row_ready = 0  # tRRD is over
        self.read_ready = 0  # no burst, data or turn of the bus is in the way of a READ
        self.write_ready = 0
        self.reads_done = 0  # the data of every read has left the bus
        self.writes_done = 0  # the data of every write is in
        self.row = [None] * 4  # the open row
        self.opened = [0] * 4  # its ACTIVE
        self.column_ready = [0] * 4  # tRCD is over
        self.close_ready = [0] * 4  # tRAS, tWR and the bank's bursts are over
        self.interrupts = interrupts
        self.read_cuts_until = 0  # a READ before this cycle cuts the last write
        self.close_cuts_until = [0] * 4  # a PRECHARGE before it cuts the row's last write
        self.first_cut = None  # the first event that cuts a write, and the rule that edition 0 breaks by it
        self.open_ready = [0] * 4  # tRP and tRC are over
        self.refreshing = True
        self.refreshes_every = refreshes_every or part["tREFI"]
        self.refresh_due = self.refreshes_every

    def below(self, n):
        """A number from 0 to n - 1. Only random() is promised to give the same numbers in every version of Python."""
        return int(self.random.random() * n)

    @property
    def h(self):
        return burst_length(self.mode) // 2

    @property
    def latency(self):
        return cas_latency(self.mode)

    def put(self, cycle, pins):
        self.events.append((cycle, pins))
        self.next = cycle + 1
        return cycle

    def send(self, earliest, pins):
        return self.put(max(self.next, self.ready, *earliest), pins)

    # ---- commands

    def active(self, b, row):
        t = self.send([self.row_ready, self.open_ready[b]], ACTIVE | bank(b) | row)
        self.row[b], self.opened[b] = row, t
        self.row_ready = t + self.part["tRRD"]
        self.column_ready[b] = t + self.part["tRCD"]
        self.close_ready[b] = t + self.part["tRAS"]
        self.close_cuts_until[b] = 0
        self.open_ready[b] = t + self.part["tRC"]
        return t

    def read(self, b, c, auto=False):
        t = self.send([self.column_ready[b], self.read_ready], READ | bank(b) | column(c) | A10 * auto)
        self.note_cut(t < self.read_cuts_until, 11)
        self.read_ready = t + self.h
        self.write_ready = self.reads_done = t + self.latency + self.h
        self.burst_ends(b, t + self.h, auto)
        return t

    def write(self, b, c, auto=False):
        t = self.send([self.column_ready[b], self.write_ready], WRITE | bank(b) | column(c) | A10 * auto)
        end = self.writes_done = t + 1 + self.h
        enough = t + 2 if self.interrupts and not auto else end
        self.read_ready = enough + self.part["tWTR"]
        self.read_cuts_until = end + self.part["tWTR"]
        self.write_ready = t + self.h
        self.burst_ends(b, enough + self.part["tWR"], auto)
        self.close_cuts_until[b] = end + self.part["tWR"]
        return t

    def note_cut(self, cuts, rule):
        if cuts and self.first_cut is None:
            self.first_cut = len(self.events) - 1, rule

    def burst_ends(self, b, cycle, auto):
        self.close_ready[b] = max(self.close_ready[b], cycle)
        if auto:
            self.closed(b, self.close_ready[b])

    def closed(self, b, cycle):
        self.row[b] = None
        self.open_ready[b] = max(self.open_ready[b], cycle + self.part["tRP"])

    def burst_terminate(self):
        return self.send([], BURST_TERMINATE)

    def precharge(self, b):
        t = self.send([self.close_ready[b]], PRECHARGE | bank(b))
        self.note_cut(t < self.close_cuts_until[b], 10)
        self.closed(b, t)
        return t

    def precharge_all(self):
        t = self.send([self.close_ready[b] for b in BANKS if self.row[b] is not None], PRECHARGE | A10)
        for b in BANKS:
            if self.row[b] is not None:
                self.note_cut(t < self.close_cuts_until[b], 10)
                self.closed(b, t)
        return t

    def close_rows(self):
        if any(row is not None for row in self.row):
            self.precharge_all()

    def auto_refresh(self):
        self.close_rows()
        t = self.send([self.reads_done, *self.open_ready], AUTO_REFRESH)
        self.ready = t + self.part["tRFC"]
        if self.refresh_due <= t:  # one that is early is no credit
            self.refresh_due += self.refreshes_every
        return t

    def mode_set(self, word):
        self.close_rows()
        t = self.send([self.reads_done, *self.open_ready], MODE_REGISTER_SET | word)
        self.ready = t + self.part["tMRD"]
        self.mode = word
        return t

    # ---- sleep

    def power_down(self):
        """Rows may stay open."""
        return self.send([self.reads_done, self.writes_done], self.quiet() | LOW)

    def self_refresh(self):
        self.close_rows()
        return self.send([self.reads_done, *self.open_ready], AUTO_REFRESH | LOW)

    def stay(self, cycles):
        """Asleep for some cycles; of a few of them the recorder keeps that CKE is low."""
        end = self.next + cycles
        while self.below(3) and self.next + cycles // 4 < end:
            self.put(self.next + self.below(cycles // 4), self.quiet() | LOW)
        self.next = end

    def wake(self, wait):
        t = self.put(self.next, self.quiet())
        self.ready = t + wait
        return t

    def nap(self):
        self.power_down()
        self.stay(5 + self.below(self.part["tREFI"] // 2))
        return self.wake(self.part["tXP"])

    def hibernate(self):
        """For longer than nine tREFI now and then: the part refreshes itself."""
        self.self_refresh()
        self.stay(5 + self.below(16 * self.part["tREFI"]))
        t = self.wake(self.part["tXSR"])
        self.refresh_due = t + self.refreshes_every
        return t

    def quiet(self):
        return DESELECT if self.below(2) else NOP

    # ---- traffic

    def open_row(self, b, row):
        if self.row[b] is not None and self.row[b] != row:
            self.precharge(b)
        if self.row[b] is None:
            self.active(b, row)

    def reach(self):
        """A bank, and a row of it: usually the open one, as programs stay near where they were."""
        b = self.below(4)
        if self.row[b] is not None and self.below(4):
            return b, self.row[b]
        return b, self.below(2 ** self.part["rowbits"])

    def request(self):
        b, row = self.reach()
        if self.below(8) == 0:
            self.open_row(*self.reach())  # a row that is wanted soon, opened ahead
        self.open_row(b, row)
        c = self.below(2 ** self.part["colbits"])
        auto = self.below(8) == 0
        if self.below(3) == 0:
            self.write(b, c, auto)
            return
        self.read(b, c, auto)
        if not auto and self.below(10) == 0:
            self.burst_terminate()

    def rest(self):
        """Nothing to do for a while; a logic analyser now and then keeps a cycle with DESELECT or NOP."""
        self.next += self.below(12)
        if self.below(20) == 0:
            self.next += self.below(self.part["tREFI"] // 3)
        if self.below(40) == 0:
            self.put(self.next, self.quiet())

    def run(self, events):
        """Traffic until there are so many events, with an AUTO REFRESH as often as this controller gives one."""
        while len(self.events) < events:
            if self.refreshing and self.refresh_due <= self.next:
                self.auto_refresh()
            self.request()
            self.rest()

    def frames(self, events, sleep):
        """Frames of traffic with sleep between them, until there are so many events."""
        while len(self.events) < events:
            self.run(min(events, len(self.events) + 40 + self.below(40)))
            sleep()
