"""Which rows stand open after each event of a clean capture, by document 01's commands and request K9, and what the program
openings prints of them. It judges nothing."""
from captures import A10, ACTIVE, ADDRESS, PRECHARGE, READ, WRITE

BANKS = range(4)

# CS#, RAS#, CAS#, WE#.
COMMAND = 0xF0000


def rows_after(events):
    """Of each event the rows that stand open behind it, by their banks."""
    rows, stood = {}, []
    for _, pins in events:
        command, bank, all_banks = pins & COMMAND, pins >> 14 & 3, pins & A10
        if command == ACTIVE:
            rows = {**rows, bank: pins & ADDRESS}
        elif command == PRECHARGE:
            rows = {} if all_banks else {b: row for b, row in rows.items() if b != bank}
        elif command in (READ, WRITE) and pins & A10:
            rows = {b: row for b, row in rows.items() if b != bank}
        stood.append(rows)
    return stood


def openings(events, bank):
    """Row, first event and last, found by looking at what stands open behind each event: in a clean capture no bank is opened
    while it is open, so an opening ends where the bank is idle again."""
    found = []
    for i, rows in enumerate(rows_after(events)):
        if bank not in rows:
            continue
        if found and found[-1][2] == i - 1:
            found[-1] = (*found[-1][:2], i)
        else:
            found.append((rows[bank], i, i))
    return found


def index(events):
    """The words of the index, and the records of the banks."""
    each = [openings(events, bank) for bank in BANKS]
    records = [(sum(map(len, each[:bank])), len(each[bank])) for bank in BANKS]
    return [word for some in each for opening in some for word in opening], records


def text(events):
    lines = [f"events {len(events)}"]
    for bank in BANKS:
        found = openings(events, bank)
        lines.append(f"bank {bank} openings {len(found)}")
        lines += [f"row {row} from event {first} to event {last}" for row, first, last in found]
    return "".join(line + "\n" for line in lines)
