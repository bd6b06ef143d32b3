"""The journal of a change of an archive, after docs/FORMAT.md, "The journal": its bytes, reading it, what is between, making it. A call answers a pair,
the number of what it says and its place; what is lent is changed only where it is done."""

from hashlib import blake2b

MAGIC = b'sleep-archive 2\n'
FRONT, HASH, LEAST, MOST, FILES, HEADER = 184, 32, 216, 1 << 28, 10, 18
DONE, LENGTH, FIRST, OWN_LENGTH, STATE, RANGE, GAP, HASHED, MET, BYTE, UNFIT = range(11)
REPLACED, FRESH, BLANK, WITNESS = 1, 2, 3, 4
FREE = FRESH, BLANK


def be(number):
    return number.to_bytes(8, 'big')


def number(held, at):
    return int.from_bytes(held[at:at + 8], 'big')


def state(content):
    """The state of a file: nothing for one that is absent."""
    return 0 if content is None else len(content) + 1


def length(of_state):
    return max(of_state - 1, 0)


def right_length(file, long):
    if file >= 8:
        return long == 32
    kind = file % 4
    if kind == 0:
        return long == 32 or (long + 8) % 80 == 0 and 1 <= (long + 8) // 80 <= 1048576
    if kind == 1:
        return long >= 32 and (long - 32) % 64 == 0 and (long - 32) // 64 <= 1048576
    if kind == 2:
        return long >= 32 and (long - 32) % 3328 == 0 and (long - 32) // 3328 <= 128
    return long <= 1 << 36


class Range:
    """A range: its file, kind, offset, length, and the bytes that its kind has."""

    def __init__(self, file, kind, offset, length, old=b'', new=b''):
        self.file, self.kind, self.offset, self.length, self.old, self.new = file, kind, offset, length, old, new

    def encoded(self):
        return bytes([self.file, self.kind]) + be(self.offset) + be(self.length) + self.old + self.new

    def after(self):
        """The bytes that stand there after the change."""
        return {REPLACED: self.new, FRESH: self.new, BLANK: bytes(self.length), WITNESS: self.old}[self.kind]


def encoded(states, ranges):
    """The bytes of a journal, whether it is well-formed or not."""
    body = b''.join(one.encoded() for one in ranges)
    front = MAGIC + be(FRONT + len(body) + HASH) + b''.join(map(be, states)) + body
    return front + blake2b(front, digest_size=32).digest()


def range_at(journal, at, end):
    """The whole range that stands at a place before the end; nothing where there is none."""
    if at + HEADER > end:
        return None
    file, kind = journal[at], journal[at + 1]
    offset, long = number(journal, at + 2), number(journal, at + 10)
    if kind not in (1, 2, 3, 4) or at + HEADER + {1: 2, 2: 1, 3: 0, 4: 1}[kind] * long > end:
        return None
    first = at + HEADER
    if kind == REPLACED:
        return Range(file, kind, offset, long, journal[first:first + long], journal[first + long:first + 2 * long])
    if kind == FRESH:
        return Range(file, kind, offset, long, b'', journal[first:first + long])
    if kind == BLANK:
        return Range(file, kind, offset, long)
    return Range(file, kind, offset, long, journal[first:first + long], b'')


def states_of(journal):
    return [(number(journal, 24 + 16 * file), number(journal, 32 + 16 * file)) for file in range(FILES)]


def table(journal, end):
    """What is wrong with the states and the ranges up to the end."""
    states = states_of(journal)
    for file, (old, new) in enumerate(states):
        if old > new or new > 0 and not right_length(file, new - 1):
            return STATE, file
    covered = [length(old) for old, _ in states]
    last = reach = 0
    at = FRONT
    while at != end:
        one = range_at(journal, at, end)
        if one is None or one.file >= FILES or one.file < last or one.length < 1:
            return RANGE, at
        old, new = map(length, states[one.file])
        stop = one.offset + one.length
        if one.offset < (reach if one.file == last else 0) or stop > new:
            return RANGE, at
        if one.kind in FREE and one.offset > covered[one.file] or one.kind not in FREE and stop > old:
            return RANGE, at
        last, reach = one.file, stop
        covered[one.file] = max(covered[one.file], stop)
        at += len(one.encoded())
    for file, (_, new) in enumerate(states):
        if covered[file] < length(new):
            return GAP, file
    return DONE, end


def check(journal):
    if not LEAST <= len(journal) <= MOST:
        return LENGTH, 0
    if journal[:16] != MAGIC:
        return FIRST, 0
    if number(journal, 16) != len(journal):
        return OWN_LENGTH, 0
    said = table(journal, len(journal) - HASH)
    if said[0] != DONE:
        return said
    if blake2b(journal[:-HASH], digest_size=32).digest() != journal[-HASH:]:
        return HASHED, 0
    return DONE, len(journal)


def states(journal, file):
    """The answer, and the two states where it is done."""
    if not LEAST <= len(journal) <= MOST:
        return (LENGTH, 0), None
    if file >= FILES:
        return (UNFIT, 0), None
    return (DONE, 0), states_of(journal)[file]


def next_range(journal, at):
    """The answer, and the range's five numbers where it is done."""
    if not LEAST <= len(journal) <= MOST:
        return (LENGTH, 0), None
    one = range_at(journal, at, len(journal) - HASH)
    if one is None:
        return (RANGE, at), None
    place = at + HEADER + (one.length if one.kind == REPLACED else 0)
    return (DONE, at + len(one.encoded())), (one.file, one.kind, one.offset, one.length, place)


def between(journal, file, at, content):
    """Whether a file as it is, nothing where it is absent, is between; its ranges begin at a place."""
    if not LEAST <= len(journal) <= MOST:
        return LENGTH, 0
    if file >= FILES:
        return UNFIT, 0
    old, new = states_of(journal)[file]
    if not old <= state(content) <= new:
        return MET, file
    held = content or b''
    while True:
        one = range_at(journal, at, len(journal) - HASH)
        if one is None or one.file != file:
            return DONE, at
        if one.kind not in FREE:
            if one.offset + one.length > len(held):
                return BYTE, one.offset
            other = one.new if one.kind == REPLACED else one.old
            for i in range(one.length):
                if held[one.offset + i] not in (one.old[i], other[i]):
                    return BYTE, one.offset + i
        at += len(one.encoded())


def begin(journal, given):
    """The answer, and the buffer afterwards."""
    if len(journal) < LEAST:
        return (LENGTH, 0), journal
    return (DONE, FRONT), MAGIC + bytes(8) + b''.join(map(be, given)) + journal[FRONT:]


def put(journal, at, one):
    asked = {REPLACED: (one.length, one.length), FRESH: (0, one.length), BLANK: (0, 0), WITNESS: (one.length, 0)}
    if one.file >= FILES or asked.get(one.kind) != (len(one.old), len(one.new)):
        return (UNFIT, 0), journal
    stop = at + HEADER + len(one.old) + len(one.new)
    if stop + HASH > len(journal):
        return (LENGTH, 0), journal
    return (DONE, stop), journal[:at] + one.encoded() + journal[stop:]


def end(journal, at):
    long = at + HASH
    if long > len(journal) or not LEAST <= long <= MOST:
        return (LENGTH, 0), journal
    if journal[:16] != MAGIC:
        return (FIRST, 0), journal
    said = table(journal, at)
    if said[0] != DONE:
        return said, journal
    front = journal[:16] + be(long) + journal[24:at]
    return (DONE, long), front + blake2b(front, digest_size=32).digest() + journal[long:]


def applied(journal, archive):
    """The ten files after the change."""
    files = list(archive)
    for file, (_, new) in enumerate(states_of(journal)):
        if new:
            held = files[file] or b''
            files[file] = held + bytes(new - 1 - len(held))
    at = FRONT
    while at != len(journal) - HASH:
        one = range_at(journal, at, len(journal) - HASH)
        if one.kind != WITNESS:
            held = files[one.file]
            files[one.file] = held[:one.offset] + one.after() + held[one.offset + one.length:]
        at += len(one.encoded())
    return files


# ---- the examples of FORMAT.md, as the program gate_journal prints them

def examples():
    first = encoded([0] * 20, [])
    given = [0] * 16 + [33, 33, 0, 33]
    key = bytes(range(32))
    ranges = [Range(8, REPLACED, 0, 2, key[:2], bytes([0xee, 0xff])), Range(8, WITNESS, 2, 1, key[2:3]),
              Range(9, FRESH, 0, 4, b'', key[:4]), Range(9, BLANK, 4, 28)]
    return [('ten absent files', first), ('a key changed and a key made', encoded(given, ranges))]


def dump(held):
    return '\n'.join(held[at:at + 32].hex() for at in range(0, len(held), 32))


if __name__ == '__main__':
    for title, held in examples():
        print(f'{title}: {len(held)} bytes')
        print(dump(held))
        print()
