"""Letters: document 01's sections "Bytes" and "The numbers that say no", read without looking at the code under test.

Kind 2 is a network and a letter's bytes to read; the letter that they give is written too. Kind 3 is a network and a letter to
write, in 8 bytes: link, sender (two bytes each), 0, 1 or 2 for request, reply and notice, subject, counter (two bytes).
"""
import random

from sheets import OLD, case, field, keeps

KINDS = {0x21: ('request', 2), 0x22: ('reply', 4), 0x23: ('notice', 5)}


class Net:
    def __init__(self, stations, links, count=None, spare=()):
        self.stations = stations
        self.count = len(links) if count is None else count
        places = list(links) + [(0, 0)] * (64 - len(links))
        for place, ends in spare:
            places[place] = ends
        self.places = places
        self.links = places[:self.count]

    def keeps(self):
        return keeps(self.stations, self.count, [a for a, _ in self.places], [b for _, b in self.places])

    def bytes(self):
        return bytes([self.stations, self.count] + [a for a, _ in self.places] + [b for _, b in self.places])


def read(net, data):
    """The number that says no, or 0 and the letter: link, sender, kind, subject, counter."""
    if not net.keeps():
        return 11, None
    if len(data) < 3:
        return 1, None
    size = data[1] << 8 | data[2]
    value, rest = data[3:3 + size], data[3 + size:]
    if len(value) < size:
        return 1, None
    kind, wanted = KINDS.get(data[0], (None, None))
    if size != wanted:
        return 2, None
    link, side, more = value[0], value[1], value[2:]
    subject = more[0] if kind == 'notice' else 0
    counter = int.from_bytes(more[-2:], 'big') if kind != 'request' else None
    if link >= len(net.links) or side > 1 or subject >= len(net.links) or counter == 0:
        return 3, None
    if rest:
        return 2, None
    return 0, (link, net.links[link][side], kind, subject, counter)


def letter_bytes(net, letter):
    link, sender, kind, subject, counter = letter
    value = [link, net.links[link].index(sender)]
    if kind == 'notice':
        value.append(subject)
    if kind != 'request':
        value += counter.to_bytes(2, 'big')
    return field({k: t for t, (k, _) in KINDS.items()}[kind], value)


def written(net, letter, room):
    """The line for writing to an output of so many bytes."""
    out = bytes([OLD]) * room
    link, sender, kind, subject, counter = letter
    if not net.keeps():
        return 'write 11 ' + out.hex()
    if (link >= len(net.links) or sender not in net.links[link] or (kind == 'notice' and subject >= len(net.links))
            or (kind != 'request' and counter == 0)):
        return 'write 3 ' + out.hex()
    new = letter_bytes(net, letter)
    if room < len(new):
        return 'write 10 ' + out.hex()
    return 'write 0 %d %s' % (len(new), (new + out[len(new):]).hex())


class Read:
    def __init__(self, name, net, data, room=8):
        self.name, self.net, self.data, self.room = name, net, bytes(data), room

    def bytes(self):
        return case(2, self.room, self.net.bytes() + self.data)

    def wanted(self):
        number, letter = read(self.net, self.data)
        if letter is None:
            return ['read %d' % number]
        link, sender, kind, subject, counter = letter
        tail = {'request': [], 'reply': [counter], 'notice': [subject, counter]}[kind]
        return [' '.join(str(x) for x in ['read', 0, link, sender, kind] + tail), written(self.net, letter, self.room)]


class Write:
    def __init__(self, name, net, letter, room):
        self.name, self.net, self.letter, self.room = name, net, letter, room

    def bytes(self):
        link, sender, kind, subject, counter = self.letter
        code = ['request', 'reply', 'notice'].index(kind)
        letter = link.to_bytes(2, 'big') + sender.to_bytes(2, 'big') + bytes([code, subject]) + counter.to_bytes(2, 'big')
        return case(3, self.room, self.net.bytes() + letter)

    def wanted(self):
        return [written(self.net, self.letter, self.room)]


SMALL = Net(4, [(0, 1), (0, 3), (2, 3)])
MANY = Net(32, [(a, b) for a in range(32) for b in range(a + 1, 32)][:64])
PAIR = Net(2, [(0, 1)])
NONE = Net(3, [])
BAD = [('no stations', Net(0, [])), ('33 stations', Net(33, [])), ('65 links', Net(32, MANY.links, count=65)), ('255 links', Net(32, MANY.links, count=255)),
       ('links out of order', Net(4, [(0, 3), (0, 1)])), ('a link twice', Net(4, [(0, 1), (0, 1)])), ('equal ends', Net(4, [(1, 1)])),
       ('an end that is no station', Net(4, [(0, 4)])), ('spare room not zero, low', Net(4, SMALL.links, spare=[(3, (1, 0))])),
       ('spare room not zero, high', Net(4, SMALL.links, spare=[(63, (0, 1))]))]
GOOD = [('request', field(0x21, [1, 0])), ('reply', field(0x22, [1, 1, 1, 44])), ('notice', field(0x23, [2, 1, 0, 255, 255]))]


def cases():
    for name, data in GOOD:
        for room in (0, 4, 5, 6, 7, 8, 9, 20):
            yield Read('a %s, written to %d bytes' % (name, room), SMALL, data, room)
        for k in range(len(data)):
            yield Read('a %s, prefix of %d bytes' % (name, k), SMALL, data[:k])
        for k in range(len(data)):
            for value in (0, 1, 255):
                yield Read('a %s, byte %d changed to %d' % (name, k, value), SMALL, data[:k] + bytes([value]) + data[k + 1:])
        for tag in range(256):
            yield Read('a %s with tag %d' % (name, tag), SMALL, bytes([tag]) + data[1:])
        for tail in ([0], [1], [255], [0x21], list(data), list(field(0x21, [0, 0]))):
            yield Read('a %s and bytes after it: %s' % (name, bytes(tail).hex()), SMALL, data + bytes(tail))
        yield Read('a bad %s and a byte after it' % name, SMALL, data[:3] + bytes([9]) + data[4:] + b'\0')
        yield Read('a %s where there is no link' % name, NONE, data)
        for problem, net in BAD:
            yield Read('a %s, against %s' % (name, problem), net, data)
    for tag in KINDS:
        for n in range(9):
            value = ([1, 0, 2, 1, 1, 1, 1, 1] + [1] * n)[:n]
            yield Read('tag %d with length %d' % (tag, n), SMALL, field(tag, value))
            yield Read('tag %d with length %d announced, nothing there' % (tag, n), SMALL, field(tag, [], n))
            yield Read('tag %d with length %d, and a byte after it' % (tag, n), SMALL, field(tag, value) + b'\1')
        yield Read('tag %d with length 65,535 announced, nothing there' % tag, SMALL, field(tag, [], 65535))
    yield Read('tag 33 with length 65,535', SMALL, field(0x21, [1] * 65535))
    yield Read('tag 34 with length 65,535, one byte missing', SMALL, field(0x22, [1] * 65534, 65535))
    yield Read('a length whose bytes are the other way round', SMALL, field(0x21, [1, 0], 512))
    yield Read('empty bytes', SMALL, b'')
    for problem, net in BAD:
        yield Read('empty bytes, against ' + problem, net, b'')
    # each end of each range
    for link in (0, 2, 3, 63, 64, 255):
        for side in (0, 1, 2, 255):
            for net in (SMALL, MANY, PAIR):
                yield Read('request on link %d, side %d' % (link, side), net, field(0x21, [link, side]))
    for counter in (0, 1, 2, 255, 256, 257, 65534, 65535):
        pair = list(counter.to_bytes(2, 'big'))
        yield Read('reply with counter %d' % counter, PAIR, field(0x22, [0, 1] + pair))
        yield Read('notice with counter %d' % counter, MANY, field(0x23, [5, 1, 63] + pair))
    for subject in (0, 1, 2, 3, 63, 64, 255):
        for net in (SMALL, MANY):
            yield Read('notice of link %d' % subject, net, field(0x23, [1, 0, subject, 0, 2]))
    yield Read('notice, everything out of range, a byte after it', SMALL, field(0x23, [9, 9, 9, 0, 0]) + b'\0')
    # letters to be written
    for kind in ('request', 'reply', 'notice'):
        for link in (0, 2, 3, 255, 256, 258, 65535):
            for sender in (0, 1, 2, 3, 256, 259, 65535):
                yield Write('%s on link %d from %d' % (kind, link, sender), SMALL, (link, sender, kind, 1, 300), 9)
        for room in range(11):
            yield Write('%s to %d bytes' % (kind, room), SMALL, (2, 3, kind, 0, 65535), room)
            yield Write('%s with a bad sender to %d bytes' % (kind, room), SMALL, (2, 0, kind, 0, 65535), room)
        for counter in (0, 1, 255, 256, 65535):
            yield Write('%s with counter %d' % (kind, counter), PAIR, (0, 1, kind, 0, counter), 8)
        for subject in (0, 2, 3, 255):
            yield Write('%s of link %d' % (kind, subject), SMALL, (1, 3, kind, subject, 2), 8)
        for problem, net in BAD:
            yield Write('%s, against %s' % (kind, problem), net, (0, 0, kind, 0, 1), 8)
        yield Write('%s where there is no link' % kind, NONE, (0, 0, kind, 0, 1), 8)
        yield Write('%s on the last of 64 links' % kind, MANY, (63, MANY.links[63][1], kind, 63, 4), 12)
    dice = random.Random(20261116)
    for i in range(100):
        tag = dice.choice(list(KINDS))
        value = [dice.choice([0, 1, 2, 3, 63, 64, 255]), dice.choice([0, 1, 1, 0, 2]), dice.choice([0, 1, 2, 63, 64]), dice.randrange(256), dice.randrange(256)]
        data = bytearray(field(tag, value[:KINDS[tag][1]]))
        if dice.randrange(4) == 0:
            data[dice.randrange(len(data))] = dice.randrange(256)
        yield Read('random %d' % i, dice.choice([SMALL, MANY, PAIR]), data + bytes(dice.choice([0, 0, 0, 1])), dice.randrange(12))
