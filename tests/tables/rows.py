"""The published burst tables, and the ways in which a table of beat places can lie in memory."""
import csv
import os

FOLDER = os.path.join(os.path.dirname(os.path.abspath(__file__)), "..", "data", "burst-tables")


def published():
    """(sheet, length, start, interleaved, order) for every row of every sheet."""
    for name in sorted(os.listdir(FOLDER)):
        with open(os.path.join(FOLDER, name), newline="", encoding="ascii") as file:
            for row in csv.DictReader(file):
                order = tuple(int(place) for place in row["order"].split())
                yield name[:-len(".csv")], int(row["length"]), int(row["start"]), row["type"] == "interleaved", order


def _nibbles(order, low_first):
    pairs = zip(order[0::2], order[1::2])
    return bytes(a | b << 4 if low_first else a << 4 | b for a, b in pairs)


def spellings(order):
    """A row as bytes: places of one, two, four or eight bytes, of either byte order, or two places a byte."""
    for width in (1, 2, 4, 8):
        for end in ("little", "big"):
            yield "%d bytes a place, %s-endian" % (width, end), b"".join(place.to_bytes(width, end) for place in order)
    if len(order) >= 8:
        for low_first in (True, False):
            yield "four bits a place, %s first" % ("low" if low_first else "high"), _nibbles(order, low_first)


def searched():
    """The rows that are searched for: (title, bytes). A row that counts up from 0 is no sign of a table, since the compiler
    numbers the lanes of a vector so; every table has rows beside it. Rows of two places are too short to be told."""
    rows = {(order, interleaved) for _, _, _, interleaved, order in published()}
    for order, interleaved in sorted(rows):
        if len(order) >= 4 and order != tuple(range(len(order))):
            kind = "interleaved" if interleaved else "sequential"
            for spelled, pattern in spellings(order):
                yield "length %d from %d, %s, %s" % (len(order), order[0], kind, spelled), pattern
