"""The words that make one thing of a capture: picture, margins, text, waveform, blanked capture, cells, open rows, export."""
from . import margins, text, words
from .capture import Capture
from .common import BROKEN, DONE, NOTHING, REFUSED, WRONG_USE, Complaint, accepted, clean, name_of, put, start, whole_text
from .facts import Facts
from .files import complain, write, write_out


def show_picture(options):
    from . import picture
    with start() as archive:
        file, answer = accepted(archive, options.file)
        if not answer.rule:
            complain(f"{name_of(options.file)}: clean, so there is no fault to show; {NOTHING}")
            return DONE
        drawn = picture.fault(Facts(archive, file.bytes))
    write(options.output, ('<?xml version="1.0" encoding="UTF-8"?>\n' + drawn + "\n").encode())
    return BROKEN


def show_margins(options):
    with start() as archive:
        for name in options.files:
            file = clean(archive, name)
            capture = Capture(file.bytes)
            lines = [margin.line() for margin in margins.margins(archive, file.bytes, capture)]
            if options.parts:
                lines += [f"{part.name}: {verdict}" for part, verdict in margins.parts(archive, file.bytes, capture)]
            write_out("".join(f"{name_of(name)}: {line}\n" for line in lines).encode())
    return DONE


def to_text(options):
    with start() as archive:
        file, _ = accepted(archive, options.file)
    write(options.output, text.text_of(Capture(file.bytes)).encode())
    return DONE


def to_capture(options):
    said = whole_text(options.file)
    try:
        typed = text.Typed(said)
        with start() as archive:
            hold_text(archive, typed)
    except text.Wrong as error:
        raise Complaint(REFUSED, f"{name_of(options.file)}: {error}; {NOTHING}") from None
    put(options.output, typed.data)
    return DONE


def hold_text(archive, typed):
    """What the library refuses is told by the line that it stands on."""
    answer = archive.judge(typed.data)
    if answer.refusal:
        raise text.Wrong(typed.line_of(answer), 1, words.refused(typed.data, len(typed.data), answer))


def to_vcd(options):
    from . import vcd
    with start() as archive:
        file, _ = accepted(archive, options.file)
        version, facts = archive.version(), Facts(archive, file.bytes)
    if not facts.explained:
        complain("this archive cannot tell which pairs a burst keeps: the dump has no data wires")
    write(options.output, vcd.dump(name_of(options.file), version, facts, options.gtkwave).encode())
    return DONE


def blank(options):
    with start() as archive:
        file, _ = accepted(archive, options.file)
        _, data = archive.blank(file.bytes)
    put(options.output, data)
    return DONE


def cells(options):
    with start() as archive:
        file = clean(archive, options.file)
        _, numbers = archive.cells(file.bytes)
    write(options.output, "".join(f"{number}\n" for number in numbers).encode())
    return DONE


# ---- open rows

def open_rows(options):
    """All openings, or how one bank stands after one event. Of a broken capture the judged events alone can be asked about."""
    if (options.bank is None) != (options.event is None):
        raise Complaint(WRONG_USE, "--bank and --event go together")
    with start() as archive:
        if options.judged:
            file, answer = accepted(archive, options.file)
            capture = Capture(Capture(file.bytes).first(answer.value))
        else:
            capture = Capture(clean(archive, options.file).bytes)
        lines = openings(archive, capture) if options.bank is None else [row_after(archive, capture, options)]
    write_out("".join(line + "\n" for line in lines).encode())
    return DONE


def openings(archive, capture):
    """A line an opening, bank 0's first."""
    if capture.n == 0:
        return []
    cycle = lambda i: capture.events[i].cycle
    return [f"bank {one.bank} row {one.row}: open from event {one.first}, cycle {cycle(one.first)}, until after event "
            f"{one.last}, cycle {cycle(one.last)}" for one in archive.openings(capture.data)]


def row_after(archive, capture, options):
    answer, _ = archive.open_row(capture.data, options.bank, options.event)
    if answer.refusal:
        raise Complaint(REFUSED, f"{name_of(options.file)}: refused {answer.refusal} place {answer.value}: there is no bank "
                                 f"{options.bank}, or no event {options.event} among {capture.n}")
    return f"bank {options.bank} after event {options.event}: " + (f"row {answer.value}" if answer.rule else "idle")


# ---- exports

def to_export(options):
    with start() as archive:
        file, _ = accepted(archive, options.file)
        answer, data = archive.write_export(file.bytes)
    if answer.refusal:
        raise Complaint(REFUSED, f"{name_of(options.file)}: refused {answer.refusal} place {answer.value}: "
                                 f"{why_no_export(Capture(file.bytes))}; {NOTHING}")
    put(options.output, data)
    return DONE


def why_no_export(capture):
    if capture.sleeps:
        return "records have no CKE, and this capture has sixteen settings"
    if capture.n and capture.events[0].cycle > 65_535:
        return f"the first event stands at cycle {words.number(capture.events[0].cycle)}, above 65,535"
    return "with a NOP every 65,535 cycles it would have over 8,000 records"
