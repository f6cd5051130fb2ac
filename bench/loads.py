"""Three loads of 100,000 events each: loads.py OUTDIR writes OUTDIR/{small,floods,full}/{network.sheet,events}.

small: a ring of four stations on an ordinary day; links are tested in turn, and now and then one is cut and heals. 1.2 % of the events are
    refused, all as 7: a timeout that comes after the reply.
floods: 32 stations and 64 links; one link after the other is cut and heals, and every notice is delivered. 5 events are refused, as 7.
full: the same network with some 3,900 letters in flight most of the time, delivered from anywhere in the list. 0.6 % are refused, all as 9:
    a delivery that would send more than there is room for.
A link that is cut heals: quiet ends at both its ends before it is tested again.
Made with the machine of tests/reading.py at hand; the same each time. Standard library only.
"""

import os
import random
import sys

sys.dont_write_bytecode = True
sys.path.insert(0, os.path.join(os.path.dirname(os.path.abspath(__file__)), "..", "tests"))
from reading import Machine, write_sheet  # noqa: E402

EVENTS = 100_000


class Load:
    def __init__(self, stations, links, seed):
        self.stations, self.links = stations, links
        self.machine, self.events, self.dice = Machine(stations, links), [], random.Random(seed)
        self.broken = set()  # the links on which every letter is lost

    def event(self, kind, a, b=0):
        self.events.append(f"{kind} {a} {b}")
        return self.machine.event(kind, a, b)

    def settle(self):
        while self.machine.letters and len(self.events) < EVENTS:
            self.event(8 if self.machine.letters[0][1] in self.broken else 7, 0)

    def up(self):
        for station in range(self.stations):
            self.event(1, station)
        for station in range(self.stations):
            self.event(3, station)
            self.settle()

    def begin(self, link):
        """A test on the link begins, at the end that has the token; if neither has, at one of them after a silent interval. Quiet ends
        at both ends first: a station that is still quiet hears no test, and the link would never heal. The tester's number."""
        ends = [self.machine.stations[s] for s in self.links[link]]
        for end in ends:
            if link in end.quiet:
                self.event(6, end.number, link)
        able = [end for end in ends if link in end.token | end.testing]
        tester = (able or [self.dice.choice(ends)])[0].number
        for _ in range(2):
            if link not in self.machine.stations[tester].testing:
                self.event(4, tester, link)
        return tester

    def test(self, link):
        """A test from its beginning to its end, and all that follows. Of the timers that a reply should have stopped one in twenty runs out
        all the same, too late: refused as 7."""
        tester = self.begin(link)
        self.settle()
        if link in self.machine.stations[tester].testing or self.dice.random() < 0.05:
            self.event(5, tester, link)
            self.settle()


def small():
    load = Load(4, [(0, 1), (0, 3), (1, 2), (2, 3)], 1)
    load.up()
    while len(load.events) < EVENTS:
        for link in range(4):
            # one link in thirty breaks; a broken one is mended after two tests on the average
            if load.dice.random() < (0.5 if link in load.broken else 1 / 30):
                load.broken ^= {link}
            load.test(link)
    return load


def hospital():
    pairs = {(s, s + 1) for s in range(31)} | {(0, 31)}
    dice = random.Random(7)
    while len(pairs) < 64:
        a, b = sorted(dice.sample(range(32), 2))
        pairs.add((a, b))
    return sorted(pairs)


def floods():
    load = Load(32, hospital(), 2)
    load.up()
    while len(load.events) < EVENTS:
        link = load.dice.randrange(64)
        load.broken = {link}
        load.test(link)
        load.broken = set()
        load.test(link)
    return load


def full():
    load = Load(32, hospital(), 3)
    load.up()
    machine, dice = load.machine, load.dice

    def newest(kind, link):
        """The place of the newest letter of that kind on the link, or None."""
        return next((p for p in range(len(machine.letters) - 1, -1, -1) if machine.letters[p][:2] == (kind, link)), None)

    def fill():
        """A link is cut and heals: its end tells all that is known, some hundreds of letters at once."""
        link = dice.randrange(64)
        for letter in ("lost", "delivered"):
            tester = load.begin(link)
            place = newest("request", link)
            if letter == "lost" or place is None:
                if place is not None:
                    load.event(8, place)
                load.event(5, tester, link)
            else:
                load.event(7, place)
                place = newest("reply", link)
                if place is not None:
                    load.event(7, place)

    while len(load.events) < EVENTS:
        if len(machine.letters) < 3880:
            fill()
        else:
            load.event(8 if len(machine.letters) > 4000 else 7, dice.randrange(len(machine.letters)))
    return load


def main():
    if len(sys.argv) != 2:
        sys.exit(__doc__)
    for load in (small, floods, full):
        folder = os.path.join(sys.argv[1], load.__name__)
        os.makedirs(folder, exist_ok=True)
        made = load()
        with open(os.path.join(folder, "network.sheet"), "wb") as file:
            file.write(write_sheet(made.stations, made.links))
        with open(os.path.join(folder, "events"), "w") as file:
            file.write("\n".join(made.events[:EVENTS]) + "\n")


if __name__ == "__main__":
    main()
