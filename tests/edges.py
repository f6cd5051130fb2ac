"""Cases at the edges that document 01 names: its sample, sheets, each kind of event in each condition, 4,096 letters and one more; and
backlogs that stop at the edges.

Standard library only.
"""

import sys

sys.dont_write_bytecode = True
from generate import rounds  # noqa: E402
from reading import Machine, write_sheet  # noqa: E402

SAMPLE_SHEET = bytes.fromhex("010001020200020001 0F0000")
SAMPLE_EVENTS = b"1 0 0\n1 1 0\n3 0 0\n3 1 0\n" + b"7 0 0\n" * 5
SAMPLE_OUTPUT = b"0 0 0\n0 0 0\n0 1 0\n0 2 0\n0 1 0\n0 1 0\n0 1 0\n0 0 1\n6 0 1\n0 2\n1 2\n"


def sheets():
    """A small sheet with each byte changed to values at the edges, cut at each place, or followed by something; and 64 to 66
    links, the last of them good or bad in several ways."""
    sheet = write_sheet(3, [(0, 1), (1, 2)])
    for place in range(len(sheet)):
        yield sheet[:place]
        for value in (0, 1, 2, 3, 14, 15, 16, 32, 33, 255):
            if value != sheet[place]:
                yield sheet[:place] + bytes([value]) + sheet[place + 1:]
    for more in (b"\0", b"\x0f\0\0", b"\x02\xff\xff", bytes(4096 - len(sheet)), bytes(4097 - len(sheet))):
        yield sheet + more
    pairs = [(a, b) for a in range(12) for b in range(a + 1, 12)]
    for many in (64, 65, 66):
        for last in (pairs[many - 1], pairs[many - 2], (0, 1), (11, 11), (11, 10), (0, 12)):
            yield write_sheet(12, pairs[:many - 1] + [last])
        yield write_sheet(12, pairs[:many])[:-4]


# Two stations and a link. Each leads station 0 to another condition or other marks; station 1 is down in the first three.
CONDITIONS = {
    "down": [],
    "waiting": ["1 0 0"],
    "tests": ["1 0 0", "3 0 0"],
    "rested": ["1 0 0", "3 0 0", "5 0 0"],
    "turn": ["1 0 0", "3 0 0", "5 0 0", "4 0 0"],
    "both-test": ["1 0 0", "1 1 0", "3 0 0", "3 1 0"],
    "asked": ["1 0 0", "1 1 0", "3 0 0", "3 1 0", "7 0 0"],
    "token": ["1 0 0", "1 1 0", "3 1 0", "3 0 0", "7 0 0"],
    "healed": ["1 0 0", "1 1 0", "3 0 0", "3 1 0", "7 0 0", "7 0 0", "7 0 0"],
    "quiet": ["1 0 0", "1 1 0", "3 0 0", "3 1 0", "7 0 0", "7 0 0", "7 0 0", "7 0 0", "4 0 0", "4 0 0", "4 1 0", "4 1 0", "5 0 0", "5 1 0"],
}


def kinds():
    """Each kind in each condition, at either station and at none, with numbers that a kind doesn't use 0 or not."""
    sheet = write_sheet(2, [(0, 1)])
    for name, before in CONDITIONS.items():
        for kind in range(10):
            for rest in ("0 0", "1 0", "2 0", "0 1", "0 999999999", "999999999 0"):
                yield f"{name}-{kind}-{rest.replace(' ', '-')}", sheet, "\n".join(before + [f"{kind} {rest}"]).encode() + b"\n"


def crowd():
    """Requests that nobody delivers: 4,096 letters, one more is refused with 9; one delivered or lost, and there is room again."""
    events = ["1 0 0", "3 0 0", "5 0 0"] + ["4 0 0", "4 0 0", "5 0 0"] * 4095
    events += ["4 0 0", "4 0 0", "4 0 0", "8 4095 0", "4 0 0", "5 0 0", "4 0 0", "4 0 0", "7 4096 0", "7 0 0", "4 0 0"]
    return write_sheet(2, [(0, 1)]), "\n".join(events).encode() + b"\n"


def cases():
    """(name, sheet, events, letters)"""
    yield "sample", SAMPLE_SHEET, SAMPLE_EVENTS, b"2100020000\n"
    for i, sheet in enumerate(sheets()):
        yield f"sheet-{i}", sheet, b"1 0 0\n", b"2100020000\n"
    for name, sheet, events in kinds():
        yield name, sheet, events, b""
    yield ("crowd", *crowd(), b"")


# What would be seen if it were taken: station 0 stops, and its counters are 1.
BEHIND = b"2 0 0\n"


def filled(size, last):
    """Events that are taken, each a line of 6 bytes, and then this line, filled up with leading zeros so that all has `size` bytes."""
    before, zeros = divmod(size - len(last), 6)
    return b"".join(line.encode() + b"\n" for line in rounds(before // 10)[:before]) + b"0" * zeros + last


def powered_up():
    """32 stations and 64 links; all stations start, their waits end one after the other, and each letter is delivered."""
    links = sorted({tuple(sorted((s, (s + step) % 32))) for s in range(32) for step in (1, 5)})
    machine, events = Machine(32, links), []
    for kind in (1, 3):
        for station in range(32):
            events.append((kind, station, 0))
            machine.event(kind, station, 0)
            while machine.letters:
                events.append((7, 0, 0))
                machine.event(7, 0, 0)
    return write_sheet(32, links), b"".join(b"%d %d %d\n" % event for event in events)


def backlogs():
    """(name, sheet, events), for the backlog alone: where it may stop, and blocks of input and lists of numbers that are full."""
    sheet, good = write_sheet(2, [(0, 1)]), "\n".join(rounds(1)).encode() + b"\n"
    yield "nothing", sheet, b""
    yield "no-newline", sheet, good[:-1]
    for name, line in {"empty": b"", "one-number": b"4", "two-numbers": b"4 0", "four-numbers": b"4 0 0 0", "ten-digits": b"4 0 0000000000",
                       "word": b"x", "6": b"9 0 0", "6-letter": b"7 4095 0", "7": b"1 0 0"}.items():
        yield f"{name}-first", sheet, (b"1 0 0\n" if name == "7" else b"") + line + b"\n" + good
        yield f"{name}-middle", sheet, good[:-60] + line + b"\n" + good[-60:]
        yield f"{name}-last", sheet, good + line + b"\n"
        yield f"{name}-last-no-newline", sheet, good + line
    yield ("9", *crowd())
    # the line's newline is the last byte of a block, the first one of the next, or the second
    for size in (1024, 65536):
        for place, end in enumerate((size - 1, size, size + 1)):
            yield f"{size}-{place}-no-newline", sheet, filled(end, b"2 1 0")
            for name, last in {"taken": b"2 1 0", "7": b"1 0 0", "6": b"7 9 0", "malformed": b"4 0"}.items():
                yield f"{size}-{place}-{name}", sheet, filled(end, last) + b"\n" + BEHIND
    # 65,536 bytes are 10,922 lines and four bytes more; 65,536 numbers are 21,845 events and one number more
    yield "12000-events", sheet, filled(6 * 12000, b"2 1 0\n")
    yield "44000-events", sheet, filled(6 * 44000, b"2 1 0\n")
    for many in (10922, 21845, 21846):
        yield f"{many}-events-and-7", sheet, filled(6 * many, b"2 1 0\n") + b"2 1 0\n" + BEHIND
    yield ("powered-up", *powered_up())
