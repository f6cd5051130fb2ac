"""Seeded cases for the programs.

    generate.py SEED OUTDIR      writes network.sheet, events and letters into OUTDIR (one sheet in sixteen cases is no file)
    generate.py --long OUTDIR    one link raised step by step to counter 65,535, and refusal 8 (some 330,000 events)

A case is a sheet (good or damaged), a stream of events that mostly are acceptable, made with the machine of reading.py
at hand, with malformed lines among them, and lines of letters for the wire program, good and damaged. The same seed gives
the same case. Standard library only.
"""

import os
import random
import sys

sys.dont_write_bytecode = True
from reading import Machine, lines, write_letter, write_sheet  # noqa: E402

# ---- sheets ----------------------------------------------------------------------------------------------------------


def line(_dice, n):
    return [(s, s + 1) for s in range(n - 1)]


def ring(_dice, n):
    return line(_dice, n) + ([(0, n - 1)] if n > 2 else [])


def star(dice, n):
    middle = dice.randrange(n)
    return [(s, middle) for s in range(n) if s != middle]


def islands(dice, n):
    shore = dice.randrange(1, n) if n > 1 else 1
    first = ring(dice, shore)
    return first + [(a + shore, b + shore) for a, b in ring(dice, n - shore)]


def scattered(dice, n):
    pairs = [(a, b) for a in range(n) for b in range(a + 1, n)]
    return dice.sample(pairs, min(64, dice.randint(0, len(pairs))))


def crowded(dice, n):
    """As many links as can be, up to 64."""
    pairs = [(a, b) for a in range(n) for b in range(a + 1, n)]
    return dice.sample(pairs, min(64, len(pairs)))


def tidy(pairs):
    return sorted({(min(pair), max(pair)) for pair in pairs})


def good_network(dice):
    shape = dice.choice([line, ring, ring, star, islands, scattered, scattered, crowded])
    n = dice.choice([1, 2, 2, 3, 3, 4, 5, 6, 8, 12, 20, 32])
    return n, tidy(shape(dice, n))


def damaged_sheet(dice, sheet):
    """One of many ways to spoil a good sheet; some leave it good, which is a case too."""
    place = dice.randrange(len(sheet))
    way = dice.randrange(16)
    if way <= 3:  # one byte changed
        return sheet[:place] + bytes([dice.choice([0, 1, 2, 15, 31, 32, 33, 255, dice.randrange(256)])]) + sheet[place + 1:]
    if way <= 5:  # cut off
        return sheet[:place]
    if way == 6:  # bytes after the end
        return sheet + dice.choice([b"\0", b"\x0f", b"\x0f\0\0", b"\x02\0\x02\0\x01", b"\x02\xff\xff"])
    if way == 7:  # a byte more or less inside
        return sheet[:place] + dice.choice([b"", b"\0", b"\x02"]) + sheet[place + dice.randrange(2):]
    if way == 8:  # too long, or just not
        return (sheet + bytes(4097))[:dice.choice([4096, 4097, 5000])]
    if way == 9:  # the number of stations
        return sheet[:3] + bytes([dice.choice([0, 32, 33, 64, 255])]) + sheet[4:]
    if way == 10:  # the station field twice, late or not at all
        return dice.choice([sheet[:4] + sheet, sheet[:-3] + sheet[:4] + sheet[-3:], sheet[4:]])
    if way == 11:  # 64, 65 and 66 links, the last one good or not
        pairs = tidy((a, b) for a in range(12) for b in range(a + 1, 12))[:dice.choice([64, 65, 66])]
        pairs[-1] = dice.choice([pairs[-1], pairs[-1], pairs[-2], (11, 11), (0, 12)])
        return write_sheet(12, pairs)
    n, pairs = sheet[3], [(sheet[i + 3], sheet[i + 4]) for i in range(4, len(sheet) - 3, 5)]
    if not pairs:
        return b""
    i, j = dice.randrange(len(pairs)), dice.randrange(len(pairs))
    if way == 12:  # wrong order
        pairs[i], pairs[j] = pairs[j], pairs[i]
    elif way == 13:  # a link twice
        pairs.insert(i, pairs[i])
    elif way == 14:  # ends equal, or higher first
        pairs[i] = dice.choice([(pairs[i][0], pairs[i][0]), (pairs[i][1], pairs[i][0])])
    else:  # an end that is no station
        pairs[i] = (pairs[i][0], n + dice.randrange(3))
    return write_sheet(n, pairs)


# ---- events ----------------------------------------------------------------------------------------------------------

# How often each kind 1 to 8 is tried, and which letter is delivered, in streams of different tempers.
TEMPERS = {
    "ordinary day": ((5, 0.1, 5, 10, 0.3, 8, 25, 0.3), "oldest"),
    "bad links": ((5, 0.2, 5, 10, 8, 6, 12, 6), "any"),
    "restarts": ((6, 2, 6, 10, 3, 6, 15, 2), "any"),
    "floods": ((5, 0.1, 5, 4, 1.5, 4, 40, 0.2), "any"),
    "late replies": ((5, 0.1, 5, 12, 6, 8, 10, 1), "newest"),
    "full list": ((5, 0.02, 5, 12, 4, 8, 24, 0), "any"),
}


def possible(machine, kind, order, dice):
    """A pair (a, b) with which an event of this kind is acceptable, or None."""
    stations = machine.stations
    if kind <= 3:
        condition = {1: ("down",), 2: ("waiting", "live"), 3: ("waiting",)}[kind]
        choices = [(s.number, 0) for s in stations if s.condition in condition]
    elif kind == 4:
        choices = [(s.number, k) for s in stations if s.condition == "live" for k in s.own if k not in s.testing | s.quiet]
        tokens = [(a, k) for a, k in choices if k in stations[a].token | stations[a].turn]
        if tokens and dice.random() < 0.5:
            choices = tokens
    elif kind == 5:
        choices = [(s.number, k) for s in stations for k in sorted(s.testing)]
        asked = [(a, k) for a, k in choices if k in stations[a].asked]
        if asked and dice.random() < 0.3:
            choices = asked
    elif kind == 6:
        choices = [(s.number, k) for s in stations for k in sorted(s.quiet)]
    else:
        many = len(machine.letters)
        if kind == 7 and order == "no notice":
            choices = [(i, 0) for i, letter in enumerate(machine.letters) if letter[0] != "notice"]
        elif kind == 7 and order != "any" and many and dice.random() < 0.8:
            choices = [(0 if order == "oldest" else many - 1, 0)]
        else:
            choices = [(dice.randrange(many), 0)] if many else []
    return dice.choice(choices) if choices else None


def careless(machine, dice):
    """Three numbers near the edges, acceptable or not."""
    edges = [0, 0, 1, len(machine.stations) - 1, len(machine.stations), len(machine.links), 31, 32, 63, 64,
             max(0, len(machine.letters) - 1), len(machine.letters), 4095, 4096, 65535, 65536, 256, 999999999]
    return dice.choice([0, 1, 2, 3, 4, 5, 6, 7, 8, 9, 256 + 7]), dice.choice(edges), dice.choice(edges + [0] * 12)


def untimely(machine, dice):
    """An event that names something, whether or not it is its time."""
    station = dice.choice(machine.stations)
    if station.own and dice.random() < 0.7:
        return dice.randint(4, 6), station.number, dice.choice(station.own)
    return dice.randint(1, 3), station.number, 0


def spelled(numbers, dice):
    """Mostly plain; sometimes with leading zeros, which are digits like others."""
    words = [str(number) for number in numbers]
    if dice.random() < 0.03:
        words = [word.rjust(dice.choice([1, 2, 5, 9]), "0") for word in words]
    return " ".join(words).encode()


def malformed(dice):
    return dice.choice([
        b"", b" ", b"1", b"1 0", b"1 0 ", b"1 0 0 ", b" 1 0 0", b"1  0 0", b"1 0  0", b"1 0 0 0", b"1\t0 0", b"1 0\t0",
        b"1 0 0\r", b"1 0 0\0", b"\0", b"+1 0 0", b"-1 0 0", b"1 -0 0", b"1.0 0 0", b"0x1 0 0", b"1,0,0", b"one 0 0", b"1 0 a",
        b"1000000000 0 0", b"1 0000000000 0", b"1 0 0000000000", b"4294967297 0 0", b"18446744073709551617 0 0", b"1 4294967296 0",
        b"\xff\xfe 0 0", "１ 0 0".encode(), b"1\xc2\xa00 0", b"# 1 0 0", b"1 0 0 # start", b"7", b"7 0 0x", b"7 0", b"1 0 0\x0b",
        b"9" * dice.choice([10, 4095, 4096, 4097, 70000]), b" " * dice.choice([2, 65536]), b"1 0 0" * dice.choice([2, 20000]),
        bytes(dice.choice([0, 1, 32, 48, 57, 58, 47, 128, 255, 13, 9]) for _ in range(dice.randrange(1, 30)))])


def event_lines(dice, machine, temper, length):
    weights, order = TEMPERS[temper]
    out = []
    for i in range(length):
        chance = dice.random()
        if chance < 0.01:
            out.append(malformed(dice))
            continue
        numbers = None
        if chance < 0.03:
            numbers = careless(machine, dice)
        elif chance < 0.05:
            numbers = untimely(machine, dice)
            if numbers[0] == 2 and dice.random() < 0.9:
                numbers = None
        if temper == "full list":
            # first the tables fill, then each heal sends them all and no notice is taken off
            order = "any" if i < length // 3 else "no notice"
        while numbers is None:
            # this ends: a station is either down, and can start, or not, and can stop
            kind = dice.choices(range(1, 9), weights)[0]
            found = possible(machine, kind, order, dice)
            if found is not None:
                numbers = (kind, *found)
        machine.event(*numbers)
        out.append(spelled(numbers, dice))
    return out


def joined(out, dice):
    """The last newline may be missing."""
    return b"\n".join(out) + (b"\n" if out and dice.random() < 0.8 else b"")


# ---- letters ---------------------------------------------------------------------------------------------------------


def letter_line(dice, links):
    if links and dice.random() < 0.9:
        link = dice.randrange(len(links))
        counter = dice.choice([1, 2, 255, 256, 65534, 65535, dice.randint(1, 65535)])
        head = (link, dice.choice(links[link]))
        data = write_letter(links, dice.choice([
            ("request", *head), ("reply", *head, counter), ("notice", *head, dice.randrange(len(links)), counter)]))
    else:
        data = bytes.fromhex(dice.choice(["2100020000", "22000400000001", "2300050000000001"]))
    way, place = dice.randrange(16), dice.randrange(len(data))
    if way == 0:
        data = data[:place]
    elif way <= 4:  # one byte changed
        data = data[:place] + bytes([dice.choice([0, 1, 2, 4, 5, len(links), 0x21, 0x22, 0x23, 255])]) + data[place + 1:]
    elif way == 5:  # bytes after the end
        data += dice.choice([b"\0", b"!", data, bytes(32 - len(data)), bytes(33 - len(data))])
    elif way == 6:  # two faults at once: a bad value and bytes after it
        data = data[:3] + b"\xff" + data[4:] + b"\0"
    elif way == 7:  # counter 0
        data = data[:-2] + b"\0\0"
    text = data.hex().encode()
    if dice.random() < 0.5:
        text = text.upper()
    if dice.random() < 0.1:
        text = dice.choice([b"", text[:-1], text + b" ", b" " + text, b"0x" + text, text + b"\r", text[:4] + b"g" + text[5:],
                            text + b"\0\0", b"\xff\xff", b"00" * 32, b"0" * 63, b"0" * 65, b"00" * 33, b"0" * 70000,
                            text.replace(b"2", b" 2")])
    return text


# ---- cases -----------------------------------------------------------------------------------------------------------


def case(seed):
    """(sheet or None for no file, events, letters), all bytes."""
    dice = random.Random(seed)
    stations, links = good_network(dice)
    temper = dice.choice(list(TEMPERS))
    if temper in ("floods", "full list") and dice.random() < 0.7:
        stations = dice.choice([12, 20, 32])
        links = tidy(crowded(dice, stations))
    sheet = write_sheet(stations, links)
    length = dice.choice([0, 1, 20, 200, 600, 600, 1500])
    if temper == "full list":
        length = 1500
    if seed % 4 == 3:
        length = min(length, 20)
    out = event_lines(dice, Machine(stations, links), temper, length)
    events = joined(out, dice)
    letters = joined([letter_line(dice, links) for _ in range(dice.choice([0, 1, 40]))], dice)
    if seed % 4 == 3:
        sheet = damaged_sheet(dice, sheet) if seed % 16 != 15 else None
    return sheet, events, letters


def inputs(program, events, letters, answers):
    """What a program is given of a case. The backlog stops at the first refused event, so it also gets the events that were answered
    with 0, which it takes whole: a refused one changes nothing. `answers` is what the event program wrote, if it was asked."""
    if program != "backlog":
        return [letters if program == "wire" else events]
    told = zip(lines(events), answers.split(b"\n"))
    taken = b"".join(line + b"\n" for line, answer in told if answer.startswith(b"0 "))
    return [events] if taken.removesuffix(b"\n") in (b"", events.removesuffix(b"\n")) else [events, taken]


def rounds(many):
    """Two stations come up. Each round loses a test of station 0 and heals the next one: its counter goes up by 2. All is taken."""
    # the last test gives the token to station 1; from then on station 0 tests on its turn, twice, and loses the first request
    events = ["1 0 0", "1 1 0", "3 0 0", "3 1 0", "7 0 0", "7 0 0", "7 0 0", "7 0 0", "4 0 0", "7 0 0", "7 0 0"]
    one_round = ["4 0 0", "4 0 0", "5 0 0", "8 0 0", "6 0 0", "4 0 0", "4 0 0", "7 0 0", "7 0 0", "7 0 0"]
    return events + one_round * many


def long_case():
    events = rounds(32766)
    # 65,534 by now: one more timeout gives 65,535, and no reply can heal it
    events += ["4 0 0", "4 0 0", "5 0 0", "8 0 0", "6 0 0", "4 0 0", "4 0 0", "7 0 0", "7 0 0", "7 0 0", "8 0 0", "5 0 0",
               "4 1 0", "7 0 0", "7 0 0", "8 0 0"]
    sheet = write_sheet(2, [(0, 1)])
    return sheet, "\n".join(events).encode() + b"\n", b"2200040000FFFF\n"


def main():
    if len(sys.argv) != 3:
        sys.exit(__doc__)
    made = long_case() if sys.argv[1] == "--long" else case(int(sys.argv[1]))
    os.makedirs(sys.argv[2], exist_ok=True)
    for name, data in zip(("network.sheet", "events", "letters"), made):
        path = os.path.join(sys.argv[2], name)
        if data is not None:
            with open(path, "wb") as file:
                file.write(data)
        elif os.path.exists(path):
            os.remove(path)


if __name__ == "__main__":
    main()
