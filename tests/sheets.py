"""Sheets: document 01's sections "Bytes" and "The numbers that say no", read without looking at the code under test.

Kind 0 is a sheet to read; the network that it gives is written too. A refused sheet gives none, and the zero value that stands
in its place is a bad network. Kind 1 is a network to write, in 130 bytes: stations, links, 64 lower ends, 64 higher ends.
"""
import random

OLD = 0xEE  # what stands in the output before


def case(kind, room, data):
    """The six bytes and what follows them."""
    return bytes([kind]) + len(data).to_bytes(3, 'big') + room.to_bytes(2, 'big') + data


def field(tag, value, length=None):
    n = len(value) if length is None else length
    return bytes([tag, n >> 8, n & 255]) + bytes(value)


def sheet(stations, links):
    return field(1, [stations]) + b''.join(field(2, ends) for ends in links) + field(15, [])


def read(data):
    """The number that says no, or 0 and the network."""
    stations, links = None, []
    while True:
        head, data = data[:3], data[3:]
        if len(head) < 3:
            return 1, None
        size = head[1] << 8 | head[2]
        value, data = data[:size], data[size:]
        if len(value) < size:
            return 1, None
        form = (head[0], size)
        if stations is None:
            if form != (1, 1):
                return 2, None
            stations = value[0]
            if stations not in range(1, 33):
                return 3, None
        elif form == (2, 2):
            ends = tuple(value)
            if not ends[0] < ends[1] < stations:
                return 3, None
            if links and ends <= links[-1]:
                return 4, None
            if len(links) == 64:
                return 5, None
            links.append(ends)
        elif form == (15, 0) and not data:
            return 0, (stations, links)
        else:
            return 2, None


def keeps(stations, count, low, high):
    """The sheet rules, with the unused room zero."""
    links = list(zip(low, high))[:count]
    return (1 <= stations <= 32 and count <= 64 and all(a < b < stations for a, b in links)
            and sorted(set(links)) == links and not any(low[count:]) and not any(high[count:]))


def written(network, room):
    """The line for writing to an output of so many bytes."""
    out = bytes([OLD]) * room
    if network is None:
        return 'write 11 ' + out.hex()
    new = sheet(*network)
    if room < len(new):
        return 'write 10 ' + out.hex()
    return 'write 0 %d %s' % (len(new), (new + out[len(new):]).hex())


class Sheet:
    def __init__(self, name, data, room=0):
        self.name, self.data, self.room = name, bytes(data), room

    def bytes(self):
        return case(0, self.room, self.data)

    def wanted(self):
        number, network = read(self.data)
        stations, links = network or (0, [])
        shown = [number, stations, len(links)] + [end for ends in links for end in ends]
        return [' '.join(['read'] + [str(n) for n in shown]), written(network, self.room)]


class Network:
    def __init__(self, name, stations, links, room, count=None, spare=()):
        self.name, self.stations, self.room = name, stations, room
        self.count = len(links) if count is None else count
        places = list(links) + [(0, 0)] * (64 - len(links))
        for place, ends in spare:
            places[place] = ends
        self.low, self.high = [a for a, _ in places], [b for _, b in places]

    def bytes(self):
        return case(1, self.room, bytes([self.stations, self.count] + self.low + self.high))

    def wanted(self):
        good = keeps(self.stations, self.count, self.low, self.high)
        links = list(zip(self.low, self.high))[:self.count]
        return [written((self.stations, links) if good else None, self.room)]


MANY = [(a, b) for a in range(32) for b in range(a + 1, 32)]
THREE = [(0, 1), (0, 3), (2, 3)]


def cases():
    # the set of document 01
    first = bytes.fromhex('010001020200020001 0F0000'.replace(' ', ''))
    yield Sheet('P1: 2 stations, 1 link', first, 12)
    yield Sheet('P2: empty bytes', b'')
    yield Sheet('P3: link 1,1', sheet(2, [(1, 1)]))
    yield Sheet('P4: the same link twice', sheet(2, [(0, 1), (0, 1)]))
    for n in (0, 1, 2, 31, 32, 33, 64, 255):
        yield Sheet('P5: %d stations' % n, sheet(n, []), 9)
    # how many links
    for n in (0, 1, 2, 63, 64):
        yield Sheet('%d links' % n, sheet(32, MANY[:n]), 7 + 5 * n)
    yield Sheet('65 links', sheet(32, MANY[:65]))
    yield Sheet('66 links', sheet(32, MANY[:66]))
    yield Sheet('a 65th link out of range', sheet(32, MANY[:64] + [(5, 32)]))
    yield Sheet('a 65th link equal to the one before it', sheet(32, MANY[:64] + [MANY[63]]))
    yield Sheet('a 65th link before the one before it', sheet(32, MANY[:64] + [MANY[0]]))
    yield Sheet('a 65th link cut short', sheet(32, MANY[:65])[:-4])
    # order and range of links
    for name, links in [
            ('first end falls', [(1, 2), (0, 3)]), ('second end falls', [(0, 3), (0, 2)]), ('rises by the second end', [(0, 2), (0, 3)]),
            ('rises by the first end, falls by the second', [(0, 3), (1, 2)]), ('an end that is no station', [(0, 4)]),
            ('both no station', [(4, 5)]), ('higher first', [(2, 1)]), ('equal ends', [(2, 2)]), ('0,0', [(0, 0)]),
            ('the highest station', [(2, 3)]), ('equal and out of range', [(0, 1), (4, 4)]), ('twice, then more', [(0, 1), (0, 1), (1, 2)]),
            ('falls and out of range', [(1, 2), (0, 9)])]:
        yield Sheet(name, sheet(4, links), 20)
    # every prefix
    good = sheet(4, THREE)
    for k in range(len(good) + 1):
        yield Sheet('prefix of %d bytes' % k, good[:k], 24)
    large = sheet(32, MANY[:64])
    for k in range(len(large) + 1):
        yield Sheet('prefix of %d bytes of 64 links' % k, large[:k])
    # each single byte changed
    for k in range(len(good)):
        for value in (0, 1, 255):
            yield Sheet('byte %d changed to %d' % (k, value), good[:k] + bytes([value]) + good[k + 1:], 23)
    # each tag, in each place
    for tag in range(256):
        yield Sheet('first field with tag %d' % tag, field(tag, [4]) + good[4:])
        yield Sheet('second field with tag %d' % tag, good[:4] + field(tag, [0, 1]) + good[9:])
        yield Sheet('last field with tag %d' % tag, good[:-3] + field(tag, []))
    # each length, in each place, the bytes there or cut off
    for n in range(9):
        for tag in (1, 2, 15):
            value = ([4] + [1] * n)[:n] if tag == 1 else ([0, 1] + [1] * n)[:n]
            yield Sheet('first field with tag %d and length %d' % (tag, n), field(tag, value) + good[4:])
            yield Sheet('second field with tag %d and length %d' % (tag, n), good[:4] + field(tag, value) + good[9:])
            yield Sheet('last field with tag %d and length %d' % (tag, n), good[:-3] + field(tag, value))
            yield Sheet('length %d announced with tag %d, nothing there' % (n, tag), good[:4] + field(tag, [], n))
    for tag in (1, 2, 15):
        yield Sheet('length 65,535 announced with tag %d, nothing there' % tag, good[:4] + field(tag, [], 65535))
    yield Sheet('first field with tag 1 and length 65,535', field(1, [4] * 65535) + good[4:])
    yield Sheet('second field with tag 2 and length 65,535', good[:4] + field(2, [1] * 65535) + good[9:])
    yield Sheet('length 65,535 announced with tag 2, one byte missing', good[:4] + field(2, [1] * 65534, 65535))
    yield Sheet('length 512, which is 2 if the low byte came first', good[:4] + field(2, [0, 1], 512) + good[9:])
    # fields out of their place, bytes after the end
    yield Sheet('stations twice', field(1, [4]) + good)
    yield Sheet('a link before the stations', field(2, [0, 1]) + good)
    yield Sheet('the last field alone', field(15, []))
    yield Sheet('stations after a link', good[:9] + field(1, [4]) + good[9:])
    for name, tail in [('0', [0]), ('1', [1]), ('255', [255]), ('15', [15]), ('15 0', [15, 0]), ('the last field again', field(15, [])),
                       ('a link', field(2, [2, 3])), ('a good sheet', good), ('a fragment of a link', [2, 0, 2, 2])]:
        yield Sheet('bytes after the end: ' + name, good + bytes(tail), 30)
    # outputs, and networks that no sheet gives
    for name, links in (('no links', []), ('three links', THREE), ('64 links', MANY[:64])):
        size = 7 + 5 * len(links)
        stations = 32 if len(links) > 3 else 4
        for room in (0, 1, size - 1, size, size + 1, size + 17):
            yield Network('%s to %d bytes' % (name, room), stations, links, room)
    for room in (0, 6, 7, 30):
        yield Network('no stations, to %d bytes' % room, 0, [], room)
        yield Network('33 stations, to %d bytes' % room, 33, [], room)
        yield Network('links out of order, to %d bytes' % room, 4, [(0, 3), (0, 1)], room)
    yield Network('65 links', 32, MANY[:64], 400, count=65)
    yield Network('255 links', 32, MANY[:64], 1000, count=255)
    yield Network('a link twice', 4, [(0, 1), (0, 1)], 30)
    yield Network('equal ends', 4, [(1, 1)], 30)
    yield Network('an end that is no station', 4, [(1, 4)], 30)
    yield Network('spare room not zero, low', 4, THREE, 30, spare=[(3, (1, 0))])
    yield Network('spare room not zero, high, last place', 4, THREE, 30, spare=[(63, (0, 1))])
    # made up at random
    dice = random.Random(20261115)
    for i in range(80):
        n = dice.randint(1, 32)
        pairs = [(a, b) for a in range(n) for b in range(a + 1, n)]
        links = sorted(dice.sample(pairs, min(len(pairs), dice.choice([0, 2, 5, 20, 64]))))
        data = bytearray(sheet(n, links))
        for _ in range(dice.choice([0, 0, 1, 1, 2])):
            data[dice.randrange(len(data))] = dice.choice([0, 1, 2, 15, 31, 32, 33, 255])
        yield Sheet('random %d' % i, data, len(data) + dice.choice([-1, 0, 0, 3]))
