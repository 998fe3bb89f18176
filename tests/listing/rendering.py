"""The listing of a capture whose verdict is known, written from docs/LISTING.md and document 01. It judges nothing."""
import os
import re

import captures
import openrows
from captures import (LOW, SLEEPY, broken_lines, burst_length, cas_latency, clean_lines, event_in, is_interleaved,
                      settings_in)

ROOT = os.path.join(os.path.dirname(os.path.abspath(__file__)), "..", "..")

NAMES = ["lane code", "row bits", "column bits", "mode word", "tRCD", "tRP", "tRAS", "tRC", "tRRD", "tWR", "tWTR", "tRFC",
         "tMRD", "tREFI", "tXP", "tXSR"]

# By RAS#, CAS#, WE# with CS# low.
COMMANDS = {getattr(captures, name.replace(" ", "_")): name for name in
            ["ACTIVE", "READ", "WRITE", "BURST TERMINATE", "PRECHARGE", "AUTO REFRESH", "MODE REGISTER SET", "NOP"]}


def tables():
    """The tables of sentences in docs/LISTING.md, whose numbers are the settings of document 01's cases: of every capture,
    and those that stand for some of them with sixteen settings and in edition 1."""
    with open(os.path.join(ROOT, "docs", "LISTING.md")) as f:
        text = f.read()
    always, others = text.split("| rule, with sixteen settings |")
    asleep, newer = others.split("| rule, in edition 1 |")
    return [dict(re.findall(r"^\| (\d+) \| `([^`]+)` \|$", part, re.M)) for part in (always, asleep, newer)]


ALWAYS, ASLEEP, NEWER = tables()


def sentence(rule, settings, edition):
    return {**ALWAYS, **(ASLEEP if len(settings) == 16 else {}), **(NEWER if edition == 1 else {})}[str(rule)]


def with_settings(sentence, settings):
    def number(match):
        i = NAMES.index(match.group(1))
        assert int(match.group(2)) == SLEEPY[i], match.group(0)
        return f"{NAMES[i]} ({settings[i]})"
    return re.sub(r"(row bits|t[A-Z]+) \((\d+)\)", number, sentence)


def setting_line(i, word):
    return f"setting {i} {NAMES[i]} " + (f"0x{word:02x}" if i == 3 else str(word))


def setting_lines(settings, edition):
    lines = [setting_line(i, word) for i, word in enumerate(settings)]
    mode = settings[3]
    order = "interleaved" if is_interleaved(mode) else "sequential"
    lines[3] += f", burst length {burst_length(mode)}, {order}, CAS latency {cas_latency(mode)}"
    return lines + (["edition 1: READ and PRECHARGE may cut a write short"] if edition == 1 else [])


def name_of(pins):
    return "DESELECT" if pins >> 16 & 1 else COMMANDS[pins & 0xE0000]


def column_of(pins, bits):
    column = pins & 0x3FF & (1 << bits) - 1
    if bits == 11:
        column |= (pins >> 11 & 1) << 10
    return column


def command(pins, column_bits):
    return command_alone(pins, column_bits) + (", CKE low" if pins & LOW else "")


def command_alone(pins, column_bits):
    name, bank, address, a10 = name_of(pins), pins >> 14 & 3, pins & 0x3FFF, pins >> 10 & 1
    if name == "ACTIVE":
        return f"ACTIVE bank {bank} row {address}"
    if name in ("READ", "WRITE"):
        return f"{name} bank {bank} column {column_of(pins, column_bits)}" + (" auto precharge" if a10 else "")
    if name == "PRECHARGE":
        return "PRECHARGE ALL" if a10 else f"PRECHARGE bank {bank}"
    if name == "MODE REGISTER SET":
        return f"MODE REGISTER SET register {bank:02b} value 0x{address:04x}"
    return name


def kind_of(pins, before):
    """What an earlier event is the last of, if it is of a kind that is listed; the pins of the event before it tell what CKE
    does."""
    if (pins ^ before) & LOW:
        return "CKE falls" if pins & LOW else "CKE rises"
    name = name_of(pins)
    if name == "ACTIVE":
        return name, pins >> 14 & 3
    return name if name in ("AUTO REFRESH", "MODE REGISTER SET") else None


def open_rows(rows):
    """Behind a judged event."""
    each = " ".join(f"{bank}:{rows[bank]}" for bank in sorted(rows))
    return f"; open {each}" if each else "; all idle"


def event_lines(events, settings, broken):
    first, end = max(0, broken - 8), min(len(events), broken + 5)
    pins = [0] + [pins for _, pins in events]
    last = {kind_of(pins[i + 1], pins[i]): i for i in range(first)}
    last.pop(None, None)
    marked = [("^", i) for i in sorted(last.values())]
    marked += [(">" if i == broken else " ", i) for i in range(first, end)]
    behind = {i: open_rows(rows) for i, rows in enumerate(openrows.rows_after(events[:broken])) if first <= i}
    return [f"{mark} event {i} cycle {events[i][0]} {command(events[i][1], settings[2])}{behind.get(i, '')}" for mark, i in marked]


def text(lines):
    return "".join(line + "\n" for line in lines)


def clean(events, settings, edition=0):
    return text(setting_lines(settings, edition) + clean_lines(events))


def broken(events, settings, rule, at, edition=0):
    asks = f"rule {rule}: {with_settings(sentence(rule, settings, edition), settings)}"
    lines = setting_lines(settings, edition) + broken_lines(events, rule, at)
    return text(lines + event_lines(events, settings, at) + [asks])


def refused_setting(place, settings):
    """A tRC within its limits is refused because of tRAS and tRP."""
    lines = [setting_line(place, settings[place])]
    if place == 7 and 1 <= settings[7] <= 10_000:
        trp, tras, trc = settings[5:8]
        lines.append(f"settings 5, 6 and 7 contradict each other: tRC ({trc}) is above tRAS ({tras}) + tRP ({trp})")
    return lines


def refused(data, number, place):
    lines = [f"refused {number} place {place}"]
    if number == 3:
        lines += refused_setting(place, settings_in(data))
    if number == 4:
        for i in range(max(0, place - 1), place + 1):
            cycle, pins = event_in(data, i)
            lines.append(f"{'>' if i == place else ' '} event {i} words 0x{cycle:08x} 0x{pins:08x}")
    return text(lines)
