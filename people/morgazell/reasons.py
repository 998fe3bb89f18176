"""Why a rule is broken, in a sentence or two, from the library's explanation."""
from . import words
from .capture import NAMES, ROW_BITS
from .facts import EARLY, LATE


def sentence(facts):
    if facts.why.kind == LATE:
        return late(facts)
    return early(facts) if facts.why.kind == EARLY else hopeless(facts)


def who(facts, i):
    """An event by its command and bank, and where it stands."""
    event = facts.capture.events[i]
    bank = "" if event.command in ("AUTO REFRESH", "MODE REGISTER SET", "NOP", "DESELECT") else f" bank {event.bank}"
    if event.command == "PRECHARGE" and event.a10:
        bank = " ALL"
    return f"{event.command}{bank} (event {i}, cycle {event.cycle})"


# ---- it came early

def early(facts):
    why, event = facts.why, facts.event
    gone = why.allowed - event.cycle
    falls = event.low and not facts.asleep
    allowed = "CKE may fall" if falls else f"{event.command} is allowed"
    also = "" if why.clean in (None, why.allowed) else f" (by every rule from {why.clean})"
    return (f"{cause(facts)}. {allowed} from {why.allowed}{also}; it {'fell' if falls else 'came'} at {event.cycle}, "
            f"{words.cycles(gone)} early.")


def cause(facts):
    why = facts.why
    if why.setting is None:
        return until(facts)
    name = NAMES[why.setting]
    since = {"tRP": precharged, "tWR": written, "tWTR": written, "tXP": woken, "tXSR": woken}.get(name, came)
    return f"{since(facts)}; {name} is {facts.capture.settings[why.setting]}"


def came(facts):
    return f"{who(facts, facts.why.event)} is counted from"


def precharged(facts):
    return f"{who(facts, facts.why.event)} precharges bank {facts.why.bank} at {facts.why.since}"


def written(facts):
    burst = next(burst for burst in facts.bursts if burst.event == facts.why.event)
    ended = facts.why.since == burst.end
    what = "The data of" if ended else "The first data pair of"
    return f"{what} {who(facts, facts.why.event)} {'ended' if ended else 'was in'} at {facts.why.since}"


def woken(facts):
    sleep = "Self refresh" if facts.why.setting == NAMES.index("tXSR") else "Power-down"
    return f"{sleep} ended at {facts.why.since} (event {facts.why.event})"


def until(facts):
    burst = next(burst for burst in facts.bursts if burst.event == facts.why.event)
    if facts.rule == 13 and facts.why.allowed == burst.k + burst.pairs and burst.auto:
        return f"{who(facts, facts.why.event)} has auto precharge and may not be cut before {facts.why.allowed}"
    return f"{who(facts, facts.why.event)} has its data on the bus until {facts.why.allowed}"


# ---- it came late

def late(facts):
    why, event = facts.why, facts.event
    gone = event.cycle - why.allowed
    ago = f"{words.cycles(gone)} ago" if gone else "this very cycle"
    origin = "" if why.since == 0 else f" since self refresh ended at {why.since}"
    last = f"The last AUTO REFRESH{origin} was event {why.event}, cycle {facts.capture.events[why.event].cycle}" \
        if why.event is not None else f"There was no AUTO REFRESH{origin or ' before'}"
    return f"At cycle {event.cycle} nine refreshes are owed, the ninth since {why.allowed}, {ago}; at most eight may be. {last}."


# ---- waiting does not mend it

def hopeless(facts):
    by = {1: no_row, 2: no_register, 3: wrong_bank}
    return by.get(facts.rule, wrong_sleep)(facts)


def no_row(facts):
    return f"{said(facts)}: the part has rows 0 to {2 ** facts.capture.settings[ROW_BITS] - 1}."


def no_register(facts):
    event = facts.event
    if event.bank != 0:
        return f"{said(facts)}: only registers 00 and 10 may be set."
    length, latency, high = event.address & 7, event.address >> 4 & 7, event.address >> 7
    wrong = ([f"burst length code {length}, not 1 to 4"] * (length not in (1, 2, 3, 4))
             + [f"CAS latency {latency}, not 2 or 3"] * (latency not in (2, 3)) + ["A7 to A13 not all low"] * (high != 0))
    return f"{said(facts)}: {'; '.join(wrong)}."


def wrong_bank(facts):
    why, event = facts.why, facts.event
    if event.bursts:
        if why.event is None:
            return f"{said(facts)}: bank {why.bank} is idle; it was never opened."
        return f"{said(facts)}: bank {why.bank} is idle since {who(facts, why.event)}."
    wants = "its bank" if event.command == "ACTIVE" else "all banks"
    row = facts.open_at_fault(why.bank).row
    return f"{said(facts)} wants {wants} idle; bank {why.bank} is open on row {row} since {who(facts, why.event)}."


def wrong_sleep(facts):
    event = facts.event
    if not facts.asleep:
        return f"{said(facts)}: CKE falls only with NOP, DESELECT or AUTO REFRESH."
    entry = facts.capture.events[facts.why.event]
    sleep = "self refresh" if entry.command == "AUTO REFRESH" else "power-down"
    if event.low:
        return f"{said(facts)}: in {sleep}, since {entry.cycle}, only NOP and DESELECT may come."
    return f"{said(facts)}: {sleep}, since {entry.cycle}, ends with NOP or DESELECT only."


def said(facts):
    return f"{words.event(facts.capture, facts.event.index)} at {facts.event.cycle}"
