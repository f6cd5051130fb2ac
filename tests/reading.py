"""A second reading of document 01, in Python, for comparison with model/model.c and for making cases.

It is written to be close to the document's sentences and far from the model's shape: marks are sets of links, letters
are tuples, a refusal is an exception, the reach is grown by rounds. Standard library only.

    reading.py events|page|backlog|wire     reads network.sheet from the current folder and standard input to its end
"""

import copy
import re
import sys


class Refused(Exception):
    """One of the numbers that say no."""

    def __init__(self, number):
        super().__init__(number)
        self.number = number


# ---- bytes -----------------------------------------------------------------------------------------------------------

def fields(data):
    """The fields of data, one after the other, each with the place behind it; 1 where the bytes end inside one."""
    at = 0
    while at < len(data):
        head = data[at:at + 3]
        if len(head) < 3:
            raise Refused(1)
        length = int.from_bytes(head[1:3], "big")
        value = data[at + 3:at + 3 + length]
        if len(value) < length:
            raise Refused(1)
        at += 3 + length
        yield head[0], value, at


def read_sheet(data):
    """(stations, links), the links as pairs in their order."""
    if len(data) > 4096:
        raise Refused(2)
    stations, links = None, []
    for tag, value, behind in fields(data):
        shape = (tag, len(value))
        if stations is None:
            if shape != (0x01, 1):
                raise Refused(2)
            if not 1 <= value[0] <= 32:
                raise Refused(3)
            stations = value[0]
        elif shape == (0x0F, 0):
            if behind != len(data):
                raise Refused(2)
            return stations, links
        elif shape == (0x02, 2):
            pair = (value[0], value[1])
            if max(pair) >= stations or pair[0] >= pair[1]:
                raise Refused(3)
            if links and pair <= links[-1]:
                raise Refused(4)
            if len(links) == 64:
                raise Refused(5)
            links.append(pair)
        else:
            raise Refused(2)
    raise Refused(1)


def field(tag, *value):
    return bytes([tag]) + len(value).to_bytes(2, "big") + bytes(value)


def write_sheet(stations, links):
    return field(0x01, stations) + b"".join(field(0x02, *pair) for pair in links) + field(0x0F)


def read_letter(links, data):
    """A letter as a tuple: kind, link, sender, then a reply's counter, or a notice's subject and counter."""
    for tag, value, behind in fields(data):
        kind = {(0x21, 2): "request", (0x22, 4): "reply", (0x23, 5): "notice"}.get((tag, len(value)))
        if kind is None:
            raise Refused(2)
        if value[0] >= len(links) or value[1] > 1:
            raise Refused(3)
        letter = (kind, value[0], links[value[0]][value[1]])
        if kind == "notice":
            if value[2] >= len(links):
                raise Refused(3)
            letter += (value[2],)
        if kind != "request":
            counter = int.from_bytes(value[-2:], "big")
            if counter == 0:
                raise Refused(3)
            letter += (counter,)
        if behind != len(data):
            raise Refused(2)
        return letter
    raise Refused(1)


def write_letter(links, letter):
    kind, link, sender, *rest = letter
    side = links[link].index(sender)
    if kind == "request":
        return field(0x21, link, side)
    high, low = divmod(rest[-1], 256)
    if kind == "reply":
        return field(0x22, link, side, high, low)
    return field(0x23, link, side, rest[0], high, low)


# ---- the machine -----------------------------------------------------------------------------------------------------

MARKS = ("token", "turn", "testing", "asked", "quiet")


class Station:
    def __init__(self, number, links):
        self.number = number
        self.links = links
        self.own = [k for k, pair in enumerate(links) if number in pair]
        self.condition = "down"
        self.blank()

    def blank(self):
        """Marks off, counters 1."""
        self.counters = [1] * len(self.links)
        for mark in MARKS:
            setattr(self, mark, set())

    def twin(self):
        """A copy to work on, with nothing sent yet."""
        other = copy.copy(self)
        other.counters = list(self.counters)
        for mark in MARKS:
            setattr(other, mark, set(getattr(self, mark)))
        other.sent = []
        return other

    def reach(self):
        """The stations led to by links that are even in this table, round by round until a round adds none."""
        reached = {self.number}
        while True:
            more = set(reached)
            for pair, counter in zip(self.links, self.counters):
                if counter % 2 == 0 and not reached.isdisjoint(pair):
                    more.update(pair)
            if more == reached:
                return reached
            reached = more

    def purge(self):
        reached = self.reach()
        self.counters = [1 if reached.isdisjoint(pair) else counter for pair, counter in zip(self.links, self.counters)]

    def report(self):
        """Words for each link, by number."""
        reached = self.reach()
        for pair, counter in zip(self.links, self.counters):
            if reached.isdisjoint(pair):
                yield "perceived unreachable"
            else:
                yield "unresponsive" if counter % 2 else "working"

    def notify(self, subject, ways):
        """A notice of subject, with the counter it has now, on each of these ways that isn't quiet."""
        for way in ways:
            if way not in self.quiet:
                self.sent.append(("notice", way, self.number, subject, self.counters[subject]))

    # the events at a station

    def start(self):
        if self.condition != "down":
            raise Refused(7)
        self.condition = "waiting"
        self.token = set(self.own)

    def stop(self):
        if self.condition == "down":
            raise Refused(7)
        self.condition = "down"
        self.blank()

    def recovery_wait_ends(self):
        if self.condition != "waiting":
            raise Refused(7)
        self.condition = "live"
        for link in self.own:
            self.interval_ends(link)

    def interval_ends(self, link):
        if self.condition != "live" or link in self.testing or link in self.quiet:
            raise Refused(7)
        for mark in (self.token, self.turn):
            if link in mark:
                mark.remove(link)
                self.testing.add(link)
                self.sent.append(("request", link, self.number))
                return
        self.turn.add(link)

    def timeout_ends(self, link):
        if link not in self.testing:
            raise Refused(7)
        self.testing.remove(link)
        if link in self.asked:
            self.asked.remove(link)
            self.token.add(link)
        if self.counters[link] % 2 == 0:
            self.counters[link] += 1
            self.notify(link, [way for way in self.own if way != link])
            self.quiet.add(link)
            self.purge()

    def quiet_ends(self, link):
        if link not in self.quiet:
            raise Refused(7)
        self.quiet.remove(link)

    # the three letters

    def hears(self, link):
        return self.condition == "live" and link not in self.quiet

    def request(self, link, sender):
        if link in self.testing and self.number > sender:
            self.asked.add(link)
            return
        self.testing.discard(link)
        self.asked.discard(link)
        self.token.add(link)
        self.turn.discard(link)
        if self.counters[link] % 2 == 1:
            for subject, counter in enumerate(self.counters):
                if subject != link and counter > 1:
                    self.notify(subject, [link])
        self.sent.append(("reply", link, self.number, self.counters[link]))

    def reply(self, link, _sender, carried):
        if link not in self.testing:
            return
        self.testing.remove(link)
        self.asked.discard(link)
        both = (self.counters[link], carried)
        new = max(both) + max(both) % 2
        if new > 65535:
            raise Refused(8)
        self.counters[link] = new
        if any(counter % 2 for counter in both):
            for subject, counter in enumerate(self.counters):
                if counter > 1:
                    self.notify(subject, self.own)
            self.purge()
        elif both[0] != both[1]:
            self.notify(link, self.own)

    def notice(self, link, _sender, subject, counter):
        if counter > self.counters[subject]:
            self.counters[subject] = counter
            self.notify(subject, [way for way in self.own if way != link])


class Machine:
    def __init__(self, stations, links):
        self.links = links
        self.stations = [Station(number, links) for number in range(stations)]
        self.letters = []
        self.settled = 0

    def receiver(self, letter):
        ends = self.links[letter[1]]
        return ends[1] if letter[2] == ends[0] else ends[0]

    def event(self, kind, a, b):
        """The answer; the state moves only if it is 0."""
        try:
            self.accept(kind, a, b)
            return 0
        except Refused as refused:
            return refused.number

    def accept(self, kind, a, b):
        if kind in (1, 2, 3):
            if a >= len(self.stations) or b != 0:
                raise Refused(6)
            after = self.stations[a].twin()
            (after.start, after.stop, after.recovery_wait_ends)[kind - 1]()
        elif kind in (4, 5, 6):
            if a >= len(self.stations) or b not in self.stations[a].own:
                raise Refused(6)
            after = self.stations[a].twin()
            (after.interval_ends, after.timeout_ends, after.quiet_ends)[kind - 4](b)
        elif kind in (7, 8):
            if a >= len(self.letters) or b != 0:
                raise Refused(6)
            name, *content = self.letters[a]
            after = self.stations[self.receiver(self.letters[a])].twin()
            if kind == 7 and after.hears(content[0]):
                getattr(after, name)(*content)
        else:
            raise Refused(6)
        gone = 1 if kind in (7, 8) else 0
        if len(self.letters) - gone + len(after.sent) > 4096:
            raise Refused(9)
        if gone:
            self.settled += self.letters[a][0] == "notice"
            del self.letters[a]
        self.letters += after.sent
        self.stations[after.number] = after

    def well_formed(self):
        """Document 01's paragraph, for the comparison to ask at the end of a case."""
        for station in self.stations:
            own = set(station.own)
            if any(not 1 <= counter <= 65535 for counter in station.counters):
                return False
            if station.condition != "live" and any(counter != 1 for counter in station.counters):
                return False
            token, turn, testing, asked, quiet = (getattr(station, mark) for mark in MARKS)
            if station.condition == "down" and token | turn | testing | asked | quiet:
                return False
            if station.condition == "waiting" and (token != own or turn | testing | asked | quiet):
                return False
            if not token | turn | testing | asked | quiet <= own:
                return False
            if testing & (token | turn | quiet) or token & turn or not asked <= testing:
                return False
        good = all(letter[2] in self.links[letter[1]] for letter in self.letters)
        return good and len(self.letters) <= 4096


# ---- the programs ----------------------------------------------------------------------------------------------------

def lines(data):
    """The last newline may be missing; no bytes at all are no line."""
    if not data:
        return []
    return data.removesuffix(b"\n").split(b"\n")


EVENT_LINE = re.compile(rb"([0-9]{1,9}) ([0-9]{1,9}) ([0-9]{1,9})")
LETTER_LINE = re.compile(rb"([0-9A-Fa-f]{2}){0,32}")


def run(machine, data):
    """The answer to each line."""
    for line in lines(data):
        match = EVENT_LINE.fullmatch(line)
        yield machine.event(*map(int, match.groups())) if match else 6


def tables(machine):
    """A line for each station: its number and its counters by link."""
    assert machine.well_formed()
    return [" ".join(map(str, [station.number, *station.counters])) for station in machine.stations]


def events(sheet, data):
    try:
        machine = Machine(*read_sheet(sheet))
    except Refused as refused:
        return f"{refused.number}\n"
    out = [f"{answer} {len(machine.letters)} {machine.settled}" for answer in run(machine, data)]
    return "\n".join(out + tables(machine)) + "\n"


def backlog(sheet, data):
    """The events up to the first refused one. The answers come one by one, so nothing behind it is looked at."""
    try:
        machine = Machine(*read_sheet(sheet))
    except Refused as refused:
        return f"{refused.number}\n"
    taken, stop = 0, 0
    for stop in run(machine, data):
        if stop:
            break
        taken += 1
    return "\n".join([f"{taken} {stop} {len(machine.letters)} {machine.settled}"] + tables(machine)) + "\n"


def page(sheet, data):
    try:
        machine = Machine(*read_sheet(sheet))
    except Refused as refused:
        return f"{refused.number}\n"
    answers = list(run(machine, data))
    out = [f"{answers.count(0)} events taken, {len(answers) - answers.count(0)} refused"]
    everyone = set(range(len(machine.stations)))
    for station in machine.stations:
        if station.condition != "live":
            out.append(f"station {station.number} {station.condition}")
            continue
        reached = station.reach()
        rest = f", lowest not reached {min(everyone - reached)}" if reached != everyone else ""
        out.append(f"station {station.number} live, reaches {len(reached)} of {len(everyone)}{rest}")
        out += [f"  station {t} {'working' if t in reached else 'unreachable'}" for t in sorted(everyone)]
        out += [f"  link {k} ({machine.links[k][0]}-{machine.links[k][1]}) {word}" for k, word in enumerate(station.report())]
    return "\n".join(out) + "\n"


def wire(sheet, data):
    try:
        stations, links = read_sheet(sheet)
    except Refused as refused:
        return f"sheet {refused.number}\n"
    out = [f"sheet 0 {stations} {len(links)} {write_sheet(stations, links).hex().upper()}"]
    for line in lines(data):
        if not LETTER_LINE.fullmatch(line):
            out.append("malformed")
            continue
        try:
            letter = read_letter(links, bytes.fromhex(line.decode("ascii")))
            out.append(" ".join(map(str, (0, *letter, write_letter(links, letter).hex().upper()))))
        except Refused as refused:
            out.append(str(refused.number))
    return "\n".join(out) + "\n"


PROGRAMS = {"events": events, "page": page, "backlog": backlog, "wire": wire}


def main():
    try:
        with open("network.sheet", "rb") as file:
            sheet = file.read()
    except OSError:
        sheet = b""
    sys.stdout.write(PROGRAMS[sys.argv[1]](sheet, sys.stdin.buffer.read()))


if __name__ == "__main__":
    main()
