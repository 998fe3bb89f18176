"""The parts whose data sheets we have: their settings in cycles, by name and grade."""
import csv
import os

from .capture import NAMES

COLUMNS = ["lane", "rowbits", "colbits", "mode", "tRCD", "tRP", "tRAS", "tRC", "tRRD", "tWR", "tWTR", "tRFC", "tMRD", "tREFI",
           "tXP", "tXSR"]


class Part:
    def __init__(self, row):
        self.name = f"{row['part']} {row['grade']}"
        self.document = row["document"]
        self.settings = [int(row[column]) for column in COLUMNS]
        self.note = row["note"]

    def fits(self, capture):
        """Whether the part has the capture's lanes, rows, columns and latency, so that its times can be compared."""
        return not self.other_shape(capture.settings)

    def other_shape(self, settings):
        """What says that the settings are another part's: lanes, rows, columns, latency."""
        wrong = [name for name, value, sheet in zip(NAMES[:3], settings, self.settings) if value != sheet]
        return wrong + ["CAS latency"] * (settings[3] >> 4 != self.settings[3] >> 4)

    def lenient(self, settings):
        """The times that are more lenient in these settings than on the sheet: shorter waits, or a longer tREFI."""
        pairs = zip(NAMES, settings, self.settings)
        return [name for i, (name, value, sheet) in enumerate(pairs) if i > 3 and (value > sheet if i == 13 else value < sheet)]


def all_parts():
    """Of a part that two sheets describe alike one is enough."""
    path = os.path.join(os.path.dirname(os.path.abspath(__file__)), "parts.csv")
    with open(path, newline="") as file:
        rows = [Part(row) for row in csv.DictReader(file)]
    return list({(part.name, *part.settings): part for part in reversed(rows)}.values())[::-1]


def part_named(name):
    return next((part for part in all_parts() if part.name == name), None)
