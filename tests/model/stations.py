"""Sixteen workstations that read from one archive, after request N11. Prints the text that the program `gate_stations` is to print.

Of the registers, chunk k is the first k % span bytes of bytes_of(k). The metadata register has 7 chunks with a span of 4, the content
register 13 with a span of 5; of the latter the leaf hash of chunk 3 and the first byte of chunk 8 are changed, so that reads of them are
refused.
"""

from dataclasses import dataclass

from samples import grow, said, sampled, told
from sleep_model import ENTRY, HEADER, call, node_hash, read, refuse_if, used_sizes

STATIONS, MOST_WAITING = 16, 4
LAST = 2 ** 64 - 1


# ---- The table ----
@dataclass
class Table:
    """For each station the reads that wait, (name of a register, chunk number), the one that came first in front; and the
    station last served."""
    waiting: list
    last: int


def fresh():
    """As if station 15 had been served."""
    return Table([[] for _ in range(STATIONS)], STATIONS - 1)


@call
def enter(table, station, name, chunk):
    refuse_if(station >= STATIONS, 21)
    refuse_if(len(table.waiting[station]) >= MOST_WAITING, 22)
    table.waiting[station].append((name, chunk))
    return ()


def next_station(table):
    """The next one in rising number, going round after the one last served, that has a read waiting; or None."""
    going_round = [(table.last + 1 + k) % STATIONS for k in range(STATIONS)]
    return next((station for station in going_round if table.waiting[station]), None)


def serve(table, metadata, content, F=node_hash):
    """('none',), which changes nothing; or ('served', station, what a direct read answers now), whatever that is."""
    station = next_station(table)
    if station is None:
        return ('none',)
    table.last = station
    return ('served', station, read(metadata, content, *table.waiting[station].pop(0), F))


# ---- The numbers of a lent table, as include/sleep_register.h reads them ----
NAMES = ('metadata', 'content')
NUMBERS, FIRSTS, REGISTERS, CHUNKS, SERVED = 161, 16, 32, 96, 160


def table_of(numbers):
    """What any 161 numbers are read as."""
    waiting = []
    for station in range(STATIONS):
        first, count = numbers[FIRSTS + station], min(numbers[station], MOST_WAITING)
        places = [MOST_WAITING * station + (first + k) % MOST_WAITING for k in range(count)]
        waiting.append([(NAMES[numbers[REGISTERS + at] != 0], numbers[CHUNKS + at]) for at in places])
    return Table(waiting, numbers[SERVED] % STATIONS)


def fresh_numbers():
    return [0] * SERVED + [STATIONS - 1]


def enter_numbers(numbers, station, name, chunk):
    """Changes the numbers as an entry does, after the call on the table that they are read as."""
    table = table_of(numbers)
    answer = enter(table, station, name, chunk)
    if answer[0] == 'done':
        count = len(table.waiting[station]) - 1
        at = MOST_WAITING * station + (numbers[FIRSTS + station] + count) % MOST_WAITING
        numbers[station], numbers[REGISTERS + at], numbers[CHUNKS + at] = count + 1, NAMES.index(name), chunk
        assert table_of(numbers) == table
    return answer


def serve_numbers(numbers, metadata, content, F=node_hash):
    """The serving's answer, and the read that is served."""
    table = table_of(numbers)
    station = next_station(table)
    given = None if station is None else table.waiting[station][0]
    answer = serve(table, metadata, content, F)
    if station is not None:
        numbers[station] = len(table.waiting[station])
        numbers[FIRSTS + station] = (numbers[FIRSTS + station] + 1) % MOST_WAITING
        numbers[SERVED] = station
        assert table_of(numbers) == table
    return answer, given


# ---- Registers and lines ----
def registers():
    metadata, content = sampled(7, 4), sampled(13, 5)
    content.tree[HEADER + ENTRY * 6] ^= 1
    content.data[13] ^= 1
    return metadata, content


def entered(table, station, name, chunk):
    answer = enter(table, station, name, chunk)
    print('enter %d %s %d: %s' % (station, name, chunk, said(answer)))
    return answer


def shown(answer):
    """Of a serving."""
    if answer[0] == 'none':
        return 'none'
    _, station, given = answer
    return '%d %s' % (station, 'done ' + (given[1].hex() or 'empty') if given[0] == 'done' else said(given))


def served(table, metadata, content):
    answer = serve(table, metadata, content)
    print('serve: ' + shown(answer))
    return answer


def emptied(table, archive):
    while served(table, *archive) != ('none',):
        pass


# ---- Short stories ----
def beginnings(archive):
    """Nobody waits; three stations that came the other way round; station 15 alone, twice."""
    table = fresh()
    emptied(table, archive)
    for station in (15, 15, 1, 0):
        entered(table, station, 'content', station)
    emptied(table, archive)
    table = fresh()
    for station in (15, 15):
        entered(table, station, 'metadata', 6)
        emptied(table, archive)


def limits(archive):
    """Stations up to 15 are let in, and four reads of each; a station that is not there comes before a full one. Nothing else is checked."""
    table = fresh()
    for station in (15, 16, 17, 255, 256, 2 ** 32, LAST):
        entered(table, station, 'content', LAST)
    for chunk in (1, 2, 4, 6, 7, 9):
        entered(table, 5, 'content', chunk)
    for station in range(STATIONS):
        for chunk in range(4):
            enter(table, station, 'metadata', chunk)
    for station in (*range(STATIONS), 16, LAST):
        entered(table, station, 'metadata', 0)
    served(table, *archive)
    for station in (1, 0, 0):
        entered(table, station, 'content', 12)
    emptied(table, archive)


def kept_last(archive):
    """Where nobody waits, the station last served stays the same: 6 comes before 5."""
    table = fresh()
    entered(table, 5, 'content', 1)
    emptied(table, archive)
    for station in (5, 6, 4):
        entered(table, station, 'content', 2)
    emptied(table, archive)


def refused_reads(archive):
    """A refused read is served and gone."""
    table = fresh()
    for name, chunk in (('content', 3), ('content', 8), ('content', 13), ('metadata', 7)):
        entered(table, 9, name, chunk)
    entered(table, 10, 'content', LAST)
    entered(table, 8, 'metadata', 5)
    emptied(table, archive)


def made_then():
    """A serving reads the registers as they are when it is made, and the one that is named alone."""
    metadata, content = registers()
    table = fresh()
    for station, name, chunk in ((1, 'content', 13), (2, 'content', 4), (3, 'metadata', 3), (4, 'metadata', 3), (5, 'content', 9)):
        entered(table, station, name, chunk)
    for image, end in zip((content.tree, content.signatures, content.bitfield, content.data), used_sizes(14, 14, 26)):
        image.extend(bytes(end - len(image)))
    grow(content, 14, 5)
    content.data[6] ^= 1
    for _ in range(2):
        served(table, metadata, content)
    content.bitfield[HEADER - 1] ^= 1
    served(table, metadata, content)
    served(table, told(metadata, 7, 5, 9), content)
    served(table, told(metadata, 7, 5, 9), content)


def flood(archive):
    """Station 3 enters whenever it can; the others once each."""
    table = fresh()
    for station in range(15, -1, -1):
        entered(table, station, 'content', station % 13)
        while entered(table, 3, 'metadata', station % 7)[0] == 'done':
            pass
    for _ in range(20):
        served(table, *archive)
        entered(table, 3, 'metadata', 6)
    emptied(table, archive)


def spoilt(archive):
    """Tables that hold anything: what they are read as is served."""
    for seed in (1, 2, 0):
        table = table_of([(7 * k + seed) % 23 if seed else LAST for k in range(NUMBERS)])
        entered(table, 6, 'content', 4)
        emptied(table, archive)


# ---- Long runs ----
class Numbers:
    """x becomes 1664525 x + 1013904223 modulo 2^32, and its higher 16 bits are given."""

    def __init__(self, seed):
        self.x = seed

    def below(self, bound):
        self.x = (1664525 * self.x + 1013904223) % 2 ** 32
        return (self.x >> 16) % bound


class Run:
    """Calls on one table, with how long each station has waited: the servings of others since it began to, or was served."""

    def __init__(self, archive, show):
        self.table, self.archive, self.show = fresh(), archive, show
        self.counts, self.folded, self.waits, self.longest = dict.fromkeys(('done', 21, 22, 'served', 'none'), 0), 0, [0] * STATIONS, 0

    def fold(self, *values):
        for value in values:
            self.folded = (31 * self.folded + value) % 2 ** 32

    def enter(self, *words):
        answer = entered(self.table, *words) if self.show else enter(self.table, *words)
        kind = 'done' if answer[0] == 'done' else answer[1]
        self.counts[kind] += 1
        self.fold(0 if kind == 'done' else kind)

    def serve(self):
        waiting = [station for station in range(STATIONS) if self.table.waiting[station]]
        answer = served(self.table, *self.archive) if self.show else serve(self.table, *self.archive)
        self.counts[answer[0]] += 1
        assert (answer == ('none',)) == (waiting == [])
        if answer == ('none',):
            self.fold(100)
            return
        _, station, given = answer
        self.fold(station, *((0, sum(given[1])) if given[0] == 'done' else (given[1], 0)))
        for other in waiting:
            self.waits[other] = 0 if other == station else self.waits[other] + 1
            self.longest = max(self.longest, self.waits[other])
        assert self.longest <= STATIONS - 1

    def told(self, words):
        counts = ' '.join('%s %d' % (kind, count) for kind, count in self.counts.items())
        print('%s: %s fold %d' % (words, counts, self.folded))


def run(archive, seed, steps, entering, flooding=None, show=False):
    """Of 8 steps `entering` enter a read on average, the others serve one; a station that floods the table enters every other read."""
    numbers, calls = Numbers(seed), Run(archive, show)
    for _ in range(steps):
        if numbers.below(8) < entering:
            station, name, chunk = numbers.below(18), ('metadata', 'content')[numbers.below(2)], numbers.below(15)
            calls.enter(flooding if flooding is not None and numbers.below(2) else station, name, chunk)
        else:
            calls.serve()
    calls.told('run seed=%d steps=%d entering=%d flooding=%s' % (seed, steps, entering, 'none' if flooding is None else flooding))


if __name__ == '__main__':
    both = registers()
    beginnings(both)
    limits(both)
    kept_last(both)
    refused_reads(both)
    flood(both)
    spoilt(both)
    run(both, 1, 300, 4, show=True)
    run(both, 2, 300, 6, 3, show=True)
    for first in range(3):
        for share in (3, 4, 5, 7):
            run(both, 100 + first, 2000, share)
            run(both, 200 + first, 2000, share, 5 * first + 3)
    made_then()
