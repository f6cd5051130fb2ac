#!/usr/bin/env python3
"""Cases for the reach library and what is wanted for them, read from document 01 without looking at the code under test.

  python3 tests/reach_cases.py            compare: exit 1 where the stored files differ from what this script makes
  python3 tests/reach_cases.py --write    write crates/reach_cases/stdin and stdout anew
  python3 tests/reach_cases.py --list     the cases, one to a line, in the order of the file

Each case is 259 bytes: stations, links, 64 lower ends, 64 higher ends, 64 counters (high byte first), the asking station.
Reach is found here by walking sets of neighbours, not by a search over links.
"""
import random
import sys
from pathlib import Path

HERE = Path(__file__).resolve().parent.parent / 'crates' / 'reach_cases'


def reached(stations, links, counters, s):
    """The stations that a list of even links leads to from s."""
    if s >= stations:
        return set()
    beside = {t: set() for t in range(stations)}
    for (a, b), c in zip(links, counters):
        if c % 2 == 0 and a < stations and b < stations:
            beside[a].add(b)
            beside[b].add(a)
    seen, edge = {s}, {s}
    while edge:
        edge = set().union(*(beside[t] for t in edge)) - seen
        seen |= edge
    return seen


def keeps(stations, count, low, high):
    """The sheet rules, with the unused room zero."""
    if not 1 <= stations <= 32 or count > 64:
        return False
    links = list(zip(low, high))[:count]
    good = all(a < b < stations for a, b in links) and all(x < y for x, y in zip(links, links[1:]))
    return good and not any(low[count:]) and not any(high[count:])


class Case:
    def __init__(self, name, stations, links, counters, s, count=None, spare=()):
        self.name, self.stations, self.s = name, stations, s
        self.count = len(links) if count is None else count
        pad = list(links) + [(0, 0)] * (64 - len(links))
        for place, ends in spare:
            pad[place] = ends
        self.low, self.high = [a for a, _ in pad], [b for _, b in pad]
        self.counters = list(counters) + [0] * (64 - len(counters))

    def bytes(self):
        wide = b''.join(bytes([c // 256, c % 256]) for c in self.counters)
        return bytes([self.stations, self.count] + self.low + self.high) + wide + bytes([self.s])

    def wanted(self):
        n, m = min(self.stations, 32), min(self.count, 64)
        links = list(zip(self.low, self.high))[:m]
        got = reached(n, links, self.counters[:m], self.s)
        missing = [t for t in range(n) if t not in got]
        near = [a in got or b in got for a, b in links]
        purged = [c if ok else 1 for c, ok in zip(self.counters, near)]
        shown = [0 if not ok else 1 if c % 2 == 0 else 2 for c, ok in zip(self.counters, near)]
        return [
            'rules ' + ('kept' if keeps(self.stations, self.count, self.low, self.high) else 'broken'),
            'reach %d %d %d' % (sum(1 << t for t in got), len(got), missing[0] if missing else 255),
            ' '.join(['purged'] + [str(c) for c in purged]),
            ' '.join(['links'] + [str(v) for v in shown])]


def line(n):
    return [(t, t + 1) for t in range(n - 1)]


def ring(n):
    return sorted(line(n) + [(0, n - 1)])


def cases():
    yield Case('P11: a line 0-1-2 from 0, link 0 even, link 1 odd', 3, line(3), [2, 1], 0)
    yield Case('P12: the same with link 0 odd, link 1 even', 3, line(3), [1, 2], 0)
    yield Case('a line of 5 from its middle, all even', 5, line(5), [2, 4, 6, 65534], 2)
    yield Case('a line of 5 from its end, the third link odd', 5, line(5), [2, 4, 7, 8], 0)
    yield Case('a ring of 6, one link cut: all reached the other way', 6, ring(6), [2, 3, 2, 2, 2, 2], 0)
    yield Case('a ring of 6, two links cut', 6, ring(6), [2, 3, 2, 2, 5, 2], 4)
    yield Case('a star of 8 from its middle, every second arm odd', 8, [(0, t) for t in range(1, 8)], [2, 1, 2, 3, 2, 5, 2], 0)
    yield Case('a star of 8 from an arm', 8, [(0, t) for t in range(1, 8)], [2, 1, 2, 3, 2, 5, 2], 1)
    yield Case('a star of 8 from an arm that is cut', 8, [(0, t) for t in range(1, 8)], [2, 1, 2, 3, 2, 5, 2], 2)
    islands = [(0, 1), (1, 2), (3, 4), (4, 5)]
    yield Case('two islands, from the first', 6, islands, [2, 2, 4, 9], 1)
    yield Case('two islands, from the second', 6, islands, [2, 2, 4, 9], 3)
    yield Case('one station alone', 1, [], [], 0)
    yield Case('32 stations on a line from station 0', 32, line(32), [2] * 31, 0)
    yield Case('32 stations on a line from station 31', 32, line(32), [2] * 31, 31)
    yield Case('32 stations on a line, the last link odd', 32, line(32), [2] * 30 + [1], 0)
    yield Case('32 stations on a line, the first link odd, from station 31', 32, line(32), [1] + [2] * 30, 31)
    many = [(a, b) for a in range(32) for b in range(a + 1, 32)][:64]
    yield Case('64 links, all even', 32, many, [2] * 64, 0)
    yield Case('64 links, only the last even, from its higher end', 32, many, [1] * 63 + [2], many[63][1])
    yield Case('a chain that the search finds from its last link on', 5, [(0, 4), (1, 2), (2, 3), (3, 4)], [2, 2, 2, 2], 0)
    # what breaks the rules is answered too
    yield Case('a station that does not exist', 3, line(3), [2, 2], 3)
    yield Case('station 255', 3, line(3), [2, 2], 255)
    yield Case('no station', 0, [], [], 0)
    yield Case('33 stations', 33, line(32), [2] * 31, 0)
    yield Case('255 stations', 255, line(32), [2] * 31, 31)
    yield Case('65 links', 32, many, [2] * 64, 0, count=65)
    yield Case('255 links', 32, many, [2] * 64, 5, count=255)
    yield Case('an end that is no station', 3, [(0, 1), (1, 5)], [2, 2], 0)
    yield Case('an end beyond the word', 3, [(0, 1), (1, 200)], [2, 2], 0)
    yield Case('equal ends', 3, [(0, 1), (1, 1)], [2, 2], 0)
    yield Case('the higher end first', 3, [(1, 0)], [2], 0)
    yield Case('the same link twice', 3, [(0, 1), (0, 1)], [1, 2], 0)
    yield Case('links out of order', 3, [(1, 2), (0, 1)], [2, 2], 0)
    yield Case('spare room not zero, lower end', 3, line(3), [2, 2], 0, spare=[(2, (1, 0))])
    yield Case('spare room not zero, higher end of the last place', 3, line(3), [2, 2], 0, spare=[(63, (0, 1))])
    dice = random.Random(20261115)
    for i in range(60):
        n = dice.randint(1, 32)
        pairs = [(a, b) for a in range(n) for b in range(a + 1, n)]
        links = sorted(dice.sample(pairs, min(len(pairs), dice.randint(0, 64))))
        odd = dice.choice([1, 3, 6])
        counters = [dice.randint(1, 65535) // 2 * 2 + (dice.randint(0, 9) < odd) for _ in links]
        yield Case('random %d' % i, n, links, [min(c, 65535) for c in counters], dice.randint(0, n - 1))


def main():
    made = list(cases())
    stdin = b''.join(c.bytes() for c in made)
    stdout = ''.join('\n'.join(c.wanted()) + '\n' for c in made).encode()
    if '--list' in sys.argv:
        for i, c in enumerate(made):
            print(i, c.name)
    elif '--write' in sys.argv:
        (HERE / 'stdin').write_bytes(stdin)
        (HERE / 'stdout').write_bytes(stdout)
    else:
        same = (HERE / 'stdin').read_bytes() == stdin and (HERE / 'stdout').read_bytes() == stdout
        print('%d cases, %s' % (len(made), 'as stored' if same else 'the stored files differ'))
        sys.exit(0 if same else 1)


main()
