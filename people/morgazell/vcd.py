"""A capture as a value change dump: one time unit a clock cycle, NOP behind an event, CKE as it holds.

Wires of one bit only, since libsigrok 0.5 stops at the first vector and says nothing; with `vectors` address, bank and rows as
vectors and commands in words, for GTKWave."""

DATA = [("rd_data", 1), ("wr_data", 1)]
STATE = [("event", 1), ("judged", 1), ("broken", 1)] + DATA
PINS = [("cke", 1), ("cs_n", 1), ("ras_n", 1), ("cas_n", 1), ("we_n", 1)]
WIRES = PINS + [("ba0", 1), ("ba1", 1)] + [(f"a{i}", 1) for i in range(14)] + STATE + [(f"open{bank}", 1) for bank in range(4)]
VECTORS = PINS + [("ba", 2), ("a", 14)] + STATE + [(f"row{bank}", 14) for bank in range(4)]
UNKNOWN, NOTHING = "x", "z"


def dump(name, version, facts, vectors):
    wires = [wire for wire in (VECTORS if vectors else WIRES) if facts.explained or wire not in DATA]
    names = [wire for wire, _ in wires] + (["command"] if vectors else [])
    signs = {wire: chr(33 + i) for i, wire in enumerate(names)}
    lines = head(name, version, facts, wires, signs, vectors)
    width, now = dict(wires), {}
    for cycle, values in sorted(by_cycle(facts, vectors).items()):
        new = [(wire, value) for wire, value in values.items() if wire in signs and now.get(wire) != value]
        if new:
            body = [shape(wire, value, signs, width) for wire, value in new]
            lines += [f"#{cycle}"] + (["$dumpvars"] + body + ["$end"] if cycle == 0 else body)
        now.update(new)
    return "\n".join(lines + [f"#{end(facts)}", ""])


def end(facts):
    """Two cycles behind all that is shown."""
    events = facts.capture.events
    data = [burst.end for burst in facts.bursts]
    return max([event.cycle for event in events[-1:]] + data + [0]) + 2


def head(name, version, facts, wires, signs, vectors):
    verdict = f"broken rule {facts.rule} event {facts.judged} cycle {facts.event.cycle}" if facts.rule else "clean"
    safe = name.encode("ascii", "replace").decode().replace("$", "?")
    lines = [f"$version Morgazell {version} $end", f"$comment {safe}: {verdict} $end",
             "$comment one time unit is one clock cycle $end", "$timescale 1 ns $end", "$scope module capture $end"]
    lines += [f"$var wire {width} {signs[wire]} {wire}{f' [{width - 1}:0]' if width > 1 else ''} $end" for wire, width in wires]
    if vectors:
        lines.append(f"$var string 1 {signs['command']} command $end")
    return lines + ["$upscope $end", "$enddefinitions $end"]


def shape(wire, value, signs, width):
    if wire == "command":
        return f"s{value} {signs[wire]}"
    if width[wire] == 1:
        return f"{value}{signs[wire]}"
    return f"b{value if isinstance(value, str) else format(value, 'b')} {signs[wire]}"


def by_cycle(facts, vectors):
    """What each wire becomes at each cycle; later entries of a cycle stand over earlier ones."""
    start = [("cke", 1), ("cs_n", 0), ("ras_n", 1), ("cas_n", 1), ("we_n", 1), ("ba", 0), ("a", 0), ("event", 0), ("judged", 1),
             ("broken", 0), ("rd_data", 0), ("wr_data", 0), ("command", "NOP")] + [(f"row{bank}", NOTHING) for bank in range(4)]
    changes = {}
    for cycle, wire, value in [(0, *one) for one in start] + known(facts) + pins(facts.capture.events) + faulty(facts):
        changes.setdefault(cycle, {}).update([(wire, value)] if vectors else single(wire, value))
    return changes


def pins(events):
    out = []
    for event, behind in zip(events, events[1:] + [None]):
        word = event.pins
        out += [(event.cycle, wire, value) for wire, value in (
            ("cke", 0 if event.low else 1), ("event", 1), ("cs_n", word >> 16 & 1), ("ras_n", word >> 17 & 1),
            ("cas_n", word >> 18 & 1), ("we_n", word >> 19 & 1), ("ba", event.bank), ("a", event.address),
            ("command", event.command.replace(" ", "_")))]
        if behind is None or behind.cycle > event.cycle + 1:
            out += [(event.cycle + 1, wire, value) for wire, value in (
                ("event", 0), ("cs_n", 0), ("ras_n", 1), ("cas_n", 1), ("we_n", 1), ("command", "NOP"))]
    return out


def known(facts):
    """Open rows and data on the bus, as far as the capture was judged."""
    events, out, stop = facts.capture.events, [], facts.event.cycle if facts.rule else None
    for opening in facts.openings:
        out.append((events[opening.first].cycle, f"row{opening.bank}", opening.row))
        if opening.last + 1 < facts.judged:
            out.append((events[opening.last + 1].cycle, f"row{opening.bank}", NOTHING))
    for burst in facts.bursts:
        wire = "wr_data" if burst.writes else "rd_data"
        out += [(burst.end, wire, 0)]
    for burst in facts.bursts:
        out += [(burst.first, "wr_data" if burst.writes else "rd_data", 1)]
    return [one for one in out if stop is None or one[0] <= stop]


def faulty(facts):
    if not facts.rule:
        return []
    stop = facts.event.cycle
    unknown = [f"row{bank}" for bank in range(4)] + ["rd_data", "wr_data"]
    told = [(stop, "broken", 1), (stop, "judged", 0), (stop + 1, "broken", 0)]
    return told + [(stop + 1, wire, UNKNOWN) for wire in unknown]


def single(wire, value):
    """A change of a vector as changes of wires."""
    if wire in ("a", "ba"):
        return [(f"{wire}{i}", value >> i & 1) for i in range(14 if wire == "a" else 2)]
    if wire.startswith("row"):
        return [("open" + wire[3:], value if value == UNKNOWN else 0 if value == NOTHING else 1)]
    return [(wire, value)]
