"""Document 01's "Both sides of each edge", P1 to P13, asked of the second reading (reading.py)."""

import sys

sys.dont_write_bytecode = True
from reading import Machine, Refused, read_sheet  # noqa: E402

LINE = [(0, 1), (1, 2)]
RING = [(0, 1), (0, 2), (1, 2)]


def sheet(text):
    """What a sheet gives: stations and links, or the number that says no."""
    try:
        return read_sheet(bytes.fromhex(text))
    except Refused as refused:
        return refused.number


def live(stations, links):
    machine = Machine(stations, links)
    for station in machine.stations:
        station.condition = "live"
    return machine


def timeout(counter):
    machine = live(2, [(0, 1)])
    machine.stations[0].counters = [counter]
    machine.stations[0].testing = {0}
    return machine.event(5, 0, 0), machine.stations[0].counters


def reply(own, carried):
    """At station 0 of a ring that tests link 0 and has counter 4 for link 2: answer, counter, letters."""
    machine = live(3, RING)
    machine.stations[0].counters = [own, 1, 4]
    machine.stations[0].testing = {0}
    machine.letters = [("reply", 0, 1, carried)]
    answer = machine.event(7, 0, 0)
    return answer, machine.stations[0].counters[0], machine.letters


def equal_notice():
    machine = live(3, LINE)
    machine.stations[1].counters = [4, 1]
    machine.letters = [("notice", 0, 0, 0, 4)]
    return machine.event(7, 0, 0), machine.letters


def view(counters):
    station = live(3, LINE).stations[0]
    station.counters = counters
    return station.reach(), list(station.report())


def flood():
    machine = live(3, LINE)
    machine.stations[0].counters = [2, 1]
    machine.letters = [("notice", 0, 0, 0, 2)]
    while machine.letters:
        machine.event(7, 0, 0)
    return machine.settled


def around(subject, counter):
    return [("notice", 0, 0, subject, counter), ("notice", 1, 0, subject, counter)]


CASES = [
    ("P1", sheet("01000102 0200020001 0F0000"), (2, [(0, 1)])),
    ("P2", sheet(""), 1),
    ("P3", sheet("01000102 0200020101 0F0000"), 3),
    ("P4", sheet("01000102 0200020001 0200020001 0F0000"), 4),
    ("P5 taken", sheet("01000120 0F0000"), (32, [])),
    ("P5 refused", sheet("01000121 0F0000"), 3),
    ("P6 even", timeout(2), (0, [3])),
    ("P6 odd", timeout(3), (0, [3])),
    ("P7", reply(7, 1), (0, 8, around(0, 8) + around(2, 4))),
    ("P8", reply(6, 8), (0, 8, around(0, 8))),
    ("P9 taken", reply(65533, 1)[:2], (0, 65534)),
    ("P9 refused", reply(65535, 1), (8, 65535, [("reply", 0, 1, 1)])),
    ("P10", equal_notice(), (0, [])),
    ("P11", view([2, 3]), ({0, 1}, ["working", "unresponsive"])),
    ("P12", view([3, 2]), ({0}, ["unresponsive", "perceived unreachable"])),
    ("P13", flood(), 2),
]

wrong = [name for name, got, wanted in CASES if got != wanted]
print(f"{len(CASES) - len(wrong)} cases as document 01 has them, {len(wrong)} not", *wrong)
sys.exit(bool(wrong))
