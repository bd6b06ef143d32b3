"""Random journals, on the compiled library and on the model: every answer, place, number and lent buffer is compared.

usage: python3 tests/differential_journal.py LIBRARY [CALLS [SEED]]
       python3 tests/differential_journal.py LIBRARY seeds|found FOLDER   (for tests/fuzz: journals to begin with; those found, read by both)

Two random archives give ranges of all four kinds; the journal is made by the library range by range in a dirty buffer, at times too short or with numbers that
do not fit, and must be the model's bytes. Of a journal that is accepted, before, after and random mixtures are between, and the ranges that the library
answers, written in a random order and some of them twice, give the archive after from each of them. Journals with bytes changed, cut, lengthened or
with numbers at the edges, with and without their hash made anew, are read by both.
"""

import pathlib
import random
import sys
from hashlib import blake2b

sys.path.insert(0, str(pathlib.Path(__file__).parent / 'model'))
import journal as model
from journal import BLANK, DONE, FRESH, FRONT, HASH, REPLACED, WITNESS, Range
from lent import Buffer, Library, numbers

EDGES = [0, 1, 2, 17, 18, 32, 33, 184, 215, 216, 1 << 28, (1 << 36) + 1, (1 << 36) + 2, (1 << 63) - 1, 1 << 63, (1 << 64) - 1]


class Journals:
    def __init__(self, library, seed):
        self.library, self.random = library, random.Random(seed)
        self.calls, self.counts = 0, {}

    # ---- the calls, each beside the model
    def call(self, name, given, expected):
        """One call: `expected` is the model's answer."""
        self.calls += 1
        key = name, expected[0]
        self.counts[key] = self.counts.get(key, 0) + 1
        answer = self.library.call('journal_' + name, given, 2)
        if answer != numbers(*expected):
            said = [int.from_bytes(answer[at:at + 8], sys.byteorder) for at in (0, 8)]
            raise SystemExit(f'journal_{name}: the library says {said}, the model {list(expected)}')

    def kept(self, name, buffer, expected):
        if buffer.held() != expected:
            raise SystemExit(f'journal_{name}: a buffer holds something else than the model says')

    def check(self, held):
        journal = Buffer(held)
        said = model.check(held)
        self.call('check', [journal], said)
        return said

    def states(self, held, file):
        lent = Buffer(b'\x5a' * 16, array=True)
        said, two = model.states(held, file)
        self.call('states', [Buffer(held), file, lent], said)
        self.kept('states', lent, numbers(*two) if two else lent.before)

    def next(self, held, at):
        lent = Buffer(b'\x5a' * 40, array=True)
        said, five = model.next_range(held, at)
        self.call('next', [Buffer(held), at, lent], said)
        self.kept('next', lent, numbers(*five) if five else lent.before)
        return said, five

    def between(self, held, file, at, content):
        said = model.between(held, file, at, content)
        there = 0 if content is None else self.random.choice([1, 1, 7, (1 << 64) - 1])
        self.call('between', [Buffer(held), file, at, there, Buffer(content or b'')], said)
        return said

    def begin(self, held, given):
        journal = Buffer(held)
        said, after = model.begin(held, given)
        self.call('begin', [journal, Buffer(numbers(*given), array=True)], said)
        self.kept('begin', journal, after)
        return after

    def put(self, held, at, one):
        journal = Buffer(held)
        said, after = model.put(held, at, one)
        self.call('put', [journal, at, one.file, one.kind, one.offset, one.length, Buffer(one.old), Buffer(one.new)], said)
        self.kept('put', journal, after)
        return said, after

    def end(self, held, at):
        journal = Buffer(held)
        said, after = model.end(held, at)
        self.call('end', [journal, at], said)
        self.kept('end', journal, after)
        return said, after

    # ---- what they are given
    def length_of(self, file):
        pick = self.random.randrange
        if file >= 8:
            return 32
        return [lambda: 32 if pick(3) == 0 else 80 * (1 + pick(5)) - 8, lambda: 32 + 64 * pick(5), lambda: 32 + 3328 * pick(2), lambda: pick(300)][file % 4]()

    def archives(self):
        """Two archives, of which the second has grown."""
        before, after = [], []
        for file in range(model.FILES):
            long, more = sorted([self.length_of(file), self.length_of(file)])
            old = None if self.random.random() < 0.3 else self.random.randbytes(long)
            if self.random.random() < 0.3:
                new = old
            elif old is None:
                new = None if self.random.random() < 0.3 else self.random.randbytes(more)
            else:
                new = bytearray(old + self.random.randbytes(more - long))
                for _ in range(self.random.randrange(4)):
                    if new:
                        new[self.random.randrange(len(new))] = self.random.choice([0, self.random.randrange(256)])
                new = bytes(new)
            before.append(old)
            after.append(new)
        return before, after

    def ranges(self, before, after):
        """Ranges that hold every byte that differs, cut at random, with witnesses and bytes that need none among them."""
        out = []
        for file, (old, new) in enumerate(zip(before, after)):
            old, new = old or b'', new or b''
            at = 0
            while at < len(new):
                stop = min(len(new), at + 1 + self.random.randrange(1 + self.random.choice([2, 20, 400])))
                if at < len(old) < stop:
                    stop = len(old)
                was, now = old[at:stop], new[at:stop]
                if at >= len(old):
                    kinds = [FRESH] if any(now) else [FRESH, BLANK]
                elif was == now:
                    kinds = [0, 0, 0, WITNESS, REPLACED, FRESH] + [BLANK] * (not any(now))
                else:
                    kinds = [REPLACED, REPLACED, FRESH] + [BLANK] * (not any(now))
                kind = self.random.choice(kinds)
                if kind:
                    out.append(Range(file, kind, at, stop - at, was if kind in (REPLACED, WITNESS) else b'', now if kind in (REPLACED, FRESH) else b''))
                at = stop
        return out

    def made(self, given, ranges):
        """The journal, made by the library in a dirty buffer."""
        room = model.LEAST + sum(len(one.encoded()) for one in ranges)
        held = self.begin(self.random.randbytes(room + self.random.choice([0, 0, 1, 50])), given)
        at = FRONT
        for one in ranges:
            if self.random.random() < 0.1:
                self.unfit(held, at, one)
            (number, place), held = self.put(held, at, one)
            assert number == DONE
            at = place
        if self.random.random() < 0.2:
            self.end(held, self.random.choice([0, at - 1, at + 1, len(held), len(held) - 31, 183, 1 << 63, (1 << 64) - 1]))
        return self.end(held, at), at

    def unfit(self, held, at, one):
        """A put that is refused, or at another place."""
        other = Range(one.file, one.kind, one.offset, one.length, one.old, one.new)
        pick = self.random.randrange(5)
        if pick == 0:
            other.kind = self.random.choice([0, 1, 2, 3, 4, 5, 256, 1 << 63])
        elif pick == 1:
            other.file = self.random.choice([10, 11, 255, 256, (1 << 64) - 1])
        elif pick == 2:
            other.length = self.random.choice(EDGES)
        elif pick == 3:
            other.old, other.new = other.new, other.old
        else:
            at = self.random.choice([len(held) - 49, len(held), len(held) + 1, 1 << 63, (1 << 64) - 1])
        if other.file < 10 and other.kind < 5 or pick > 3:
            self.put(held, at, other)
        else:
            journal = Buffer(held)
            self.call('put', [journal, at, other.file, other.kind, other.offset, other.length, Buffer(other.old), Buffer(other.new)], (model.UNFIT, 0))
            self.kept('put', journal, held)

    def mixture(self, journal, before, after):
        """What a stop can leave: each file of a length from one to the other, each byte the old or the new one, or anything where kinds 2 and 3 hold it."""
        free = [set() for _ in before]
        at = FRONT
        while at != len(journal) - HASH:
            one = model.range_at(journal, at, len(journal) - HASH)
            if one.kind in model.FREE:
                free[one.file].update(range(one.offset, one.offset + one.length))
            at += len(one.encoded())
        out = []
        for file, (old, new) in enumerate(zip(before, after)):
            if new is None or old is None and self.random.random() < 0.5:
                out.append(old)
                continue
            was = old or b''
            held = bytearray(self.random.randrange(len(was), len(new) + 1))
            for i in range(len(held)):
                kept = was[i] if i < len(was) and self.random.random() < 0.5 else new[i]
                held[i] = self.random.randrange(256) if i in free[file] else kept
            out.append(bytes(held))
        return out

    # ---- what must hold
    def judged(self, journal, archive):
        """All ten files, one after the other, as a caller asks."""
        at = FRONT
        for file, content in enumerate(archive):
            number, at = self.between(journal, file, at, content)
            if number != DONE:
                return False
        return at == len(journal) - HASH

    def settles(self, journal, archive, after):
        """The ranges that the library answers, in a random order and some twice, give the archive after."""
        writes, at = [], FRONT
        while True:
            (number, place), five = self.next(journal, at)
            if number != DONE:
                break
            writes.append(five)
            at = place
        assert at == len(journal) - HASH
        writes += self.random.choices(writes, k=self.random.randrange(3)) if writes else []
        self.random.shuffle(writes)
        files = [bytearray(held or b'') for held in archive]
        for file, held in enumerate(files):
            held.extend(bytes(model.length(model.states_of(journal)[file][1]) - len(held)))
        for file, kind, offset, long, place in writes:
            if kind != WITNESS:
                files[file][offset:offset + long] = bytes(long) if kind == BLANK else journal[place:place + long]
        if any(held != (new or b'') for held, new in zip(files, after)):
            raise SystemExit('the writes of a journal do not give the archive after')

    def whole(self):
        before, after = self.archives()
        given = [of for two in zip(before, after) for of in map(model.state, two)]
        ranges = self.ranges(before, after)
        ((number, long), held), at = self.made(given, ranges)
        journal = held[:long] if number == DONE else b''
        if number != DONE or journal != model.encoded(given, ranges) or self.check(journal) != (DONE, long):
            raise SystemExit('a journal of two archives is refused, or is not the encoding')
        for archive in before, after, self.mixture(journal, before, after), self.mixture(journal, before, after):
            if not self.judged(journal, archive):
                raise SystemExit('an archive between is refused')
            self.settles(journal, archive, after)
        strange = [None if held is None else bytearray(held) for held in before]
        for held in strange:
            if held and self.random.random() < 0.7:
                held[self.random.randrange(len(held))] ^= 1 << self.random.randrange(8)
        self.judged(journal, [held if held is None else bytes(held) for held in strange])
        self.judged(journal, [self.random.choice([None, b'', held, (held or b'') + b'\0', (held or b'')[:-1]]) for held in before])
        return journal

    def without_a_range(self, held):
        """The same with one range left out, if its ranges can be read."""
        places, at, end = [], FRONT, len(held) - HASH
        while at < end:
            one = model.range_at(bytes(held), at, end)
            if one is None:
                break
            places.append((at, at + len(one.encoded())))
            at = places[-1][1]
        if places:
            start, stop = self.random.choice(places)
            del held[start:stop]
        return held

    def spoilt(self, journal):
        held = bytearray(journal)
        for _ in range(self.random.choice([1, 1, 2, 5])):
            pick = self.random.randrange(6)
            if pick == 5:
                held = self.without_a_range(held)
            elif pick == 0:
                held[self.random.randrange(len(held))] = self.random.choice([0, 1, 2, 3, 4, 5, 9, 10, 255, self.random.randrange(256)])
            elif pick == 1:
                at = self.random.randrange(max(1, len(held) - 8))
                held[at:at + 8] = (self.random.choice(EDGES) if self.random.random() < 0.7 else len(held)).to_bytes(8, 'big')
            elif pick == 2:
                at = self.random.randrange(len(held))
                del held[at:at + self.random.choice([1, 8, 18, 40])]
            elif pick == 3:
                at = self.random.randrange(len(held) + 1)
                held[at:at] = self.random.randbytes(self.random.choice([1, 8, 18]))
            else:
                at = 24 + 8 * self.random.randrange(20)
                held[at:at + 8] = self.random.choice([0, 1, 33, 34, 73, 97, 3361, *EDGES]).to_bytes(8, 'big')
            if len(held) < 40:
                return bytes(held)
        if self.random.random() < 0.8:
            held[16:24] = len(held).to_bytes(8, 'big')
            held[-HASH:] = blake2b(held[:-HASH], digest_size=32).digest()
        return bytes(held)

    def misread(self, held):
        self.check(held)
        for _ in range(2):
            file = self.random.choice([*range(10), 10, (1 << 64) - 1])
            at = self.random.choice([FRONT, self.random.randrange(len(held) + 20), *EDGES[-4:], len(held) - 32, len(held) - 50])
            self.states(held, file)
            self.next(held, max(at, 0))
            content = self.random.choice([None, b'', self.random.randbytes(self.random.randrange(400))])
            self.between(held, file, max(at, 0), content)
        if len(held) > 60:
            self.end(held, self.random.choice([len(held) - HASH, self.random.randrange(len(held))]))

    def life(self):
        journal = self.whole()
        for _ in range(8):
            self.misread(self.spoilt(journal))
        self.misread(self.random.randbytes(self.random.choice([0, 1, 31, 32, 215, 216, 300])))

    def run(self, calls):
        while self.calls < calls:
            self.life()
        for name in ('check', 'end'):
            for number in (1, 2, 4, 5, 6):
                if calls >= 20000 and (name, number) not in self.counts:
                    raise SystemExit(f'journal_{name}: no case says {number}')

    # ---- for tests/fuzz, whose inputs are journals but for their first 24 and last 32 bytes
    def seeds(self, folder):
        for number in range(200):
            (folder / f'seed-{number}').write_bytes(self.whole()[24:-HASH])

    def found(self, folder):
        taken = 0
        for path in sorted(folder.iterdir()):
            held = model.MAGIC + bytes(8) + path.read_bytes()
            held = held[:16] + model.be(len(held) + HASH) + held[24:]
            held += blake2b(held, digest_size=32).digest()
            taken += self.check(held)[0] == DONE
            self.misread(held)
            at = FRONT
            for file in range(model.FILES):
                self.states(held, file)
                (number, place), _ = self.next(held, at)
                at = place if number == DONE else at
        print(f'journals: {len(list(folder.iterdir()))} that were found, {taken} of them accepted, are read as the model reads them')


def main():
    if len(sys.argv) > 3 and sys.argv[2] in ('seeds', 'found'):
        return getattr(Journals(Library(sys.argv[1]), 1), sys.argv[2])(pathlib.Path(sys.argv[3]))
    calls = int(sys.argv[2]) if len(sys.argv) > 2 else 20000
    seed = int(sys.argv[3]) if len(sys.argv) > 3 else random.randrange(1 << 32)
    print(f'journals: {calls} calls, seed {seed}')
    journals = Journals(Library(sys.argv[1]), seed)
    journals.run(calls)
    print(', '.join(f'{name} {number}: {count}' for (name, number), count in sorted(journals.counts.items())))


if __name__ == '__main__':
    main()
