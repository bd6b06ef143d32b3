"""Runs the script of the program `gate_script` on the reference model alone, and prints what the program is to print; with --stdin, prints the script.

Each line has a word, of which the first two letters count, and decimal numbers. The registers of a script are parts of four buffers, and chunks,
signatures, root hashes and packets are parts of a fifth, the text; all hold a5 at first. `lend` names the parts of the first register, from and to
where in each buffer, `told` what is told of it, and `swap` makes the second register the first. `flip`, `put` and `fill` change bytes of a lent
part of the first register or of the text. The other words are a call each, on the first register, on both, or on parts of the text alone.
`cut`, `Cut` and `xwalk` ask for parts (cuts.py). `splace`, `sbyte` and `ssearch` ask both ways, the quick one and the short one, for a number and
those that follow it. A word that begins with a capital letter is a call on a copy: tree, bitfield and data of the first register, with n and the
size that are told. `bring` makes a packet of the second register, in a part of the text. `hash` has an output length and the part of the text that
is hashed, and `show` a part of a file or of the text, whose bytes are printed.

A sum is the first 8 bytes of the hash of a lent part, whole. A call that may write has them behind its answer: tree, signatures, bitfield, data.
"""

import functools
import hashlib
import sys
from contextlib import contextmanager

sys.dont_write_bytecode = True  # nothing generated lies beside the sources
import audits
import copies
import leaves
import cuts
import dumps
import lists
import old_roots
import page
import parts
import preview as previews
import reads
import registers
import released
import short_way
from copy_model import Copy, audit_copy, make_copy, take_in
from record_model import find, read_record
from samples import SIGNATURE_AT, TEXT, grow, said, sampled
from sleep_model import (HASH, SIGNATURE, Register, append, append_list, audit, be, byte_lookup, check_packet, compare, compare_packets,
                         first_not_held, images_of, make_packet, node_hash, number_in, old_root, place_lookup, preview, read, release, root_hash,
                         short_byte, short_place, short_search, start, store_signature, stored_leaf)

ROOM = 1320000, 1054000, 18000, 140000, 66000  # of the buffers
MOST_BYTES = 524288  # of a script
PACKET_ROOM = 1200
MOST_LENGTHS = 12  # that a line has


class Script:
    def __init__(self):
        self.buffers = [bytearray(b'\xa5' * room) for room in ROOM]
        self.parts = [[(0, 0)] * 4, [(0, 0)] * 4]
        self.numbers = [(0, 0, 0), (0, 0, 0)]
        self.lines, self.answers = [], []

    def run(self, line):
        """Runs a line, and gives its answer. What a call has changed is told next."""
        word, *numbers = line.split(' ')
        before = self.numbers[0]
        if word == '#':
            answer = None
        elif word in SETTINGS:
            answer = SETTINGS[word](self, *map(int, numbers))
        else:
            answer = self.call(word, *map(int, numbers))
        self.lines.append(line)
        self.answers.append(line if answer is None else line + ': ' + answer)
        if word not in ('told', 'swap') and self.numbers[0] != before:
            self.run('told %d %d %d' % self.numbers[0])
        return answer

    def call(self, word, *numbers):
        r, text = self.register(), self.buffers[TEXT]
        if word[0].isupper():
            return self.call_on_copy(word, *numbers)
        if word in ON_TEXT:
            return ON_TEXT[word](text, *numbers)
        if word in ON_PAIRS:
            return ON_PAIRS[word](r, self.register(1), *numbers)
        if word in ASKING:
            return ASKING[word](r, text, *numbers)
        answer = WRITING[word](r, text, *numbers)
        self.keep(r)
        return ' '.join([answer] + [digest(image) for image in images_of(r)])

    def call_on_copy(self, word, *numbers):
        r, text = self.register(), self.buffers[TEXT]
        c = Copy(r.tree, r.bitfield, r.data, r.n, r.size)
        if word in COPY_ASKING:
            return COPY_ASKING[word](c, text, *numbers)
        answer = COPY_WRITING[word](c, text, *numbers)
        self.keep(r)
        return ' '.join([answer] + [digest(image) for image in images_of(r)])

    def bring(self, chunk, start, end):
        out = self.buffers[TEXT][start:end]
        made = make_packet(self.register(1), chunk, out)
        self.buffers[TEXT][start:end] = out
        return str(made[1]) if made[0] == 'done' else said(made)

    def lend(self, *ends):
        parts = list(zip(ends[::2], ends[1::2]))
        assert len(parts) == 4 and all(a <= b <= room for (a, b), room in zip(parts, ROOM))
        self.parts[0] = parts

    def tell(self, n, s, size):
        self.numbers[0] = n, s, size

    def swap(self):
        self.parts.reverse()
        self.numbers.reverse()

    def place(self, file, at, count):
        """The buffer of a file, and where in it the bytes at a place of the lent part, or of the text, begin and end."""
        start, end = self.parts[0][file] if file < TEXT else (0, ROOM[TEXT])
        assert start + at + count <= end
        return self.buffers[file], start + at, start + at + count

    def flip(self, file, at, mask):
        buffer, a, _ = self.place(file, at, 1)
        buffer[a] ^= mask

    def put(self, file, at, number):
        buffer, a, b = self.place(file, at, 8)
        buffer[a:b] = be(8, number)

    def fill(self, file, at, count, first, step):
        buffer, a, b = self.place(file, at, count)
        buffer[a:b] = stepped(first, step, count)

    def register(self, which=0):
        """The lent parts, and what is told."""
        images = (buffer[a:b] for buffer, (a, b) in zip(self.buffers, self.parts[which]))
        return Register(*images, *self.numbers[which])

    def keep(self, r):
        for buffer, image, (a, b) in zip(self.buffers, images_of(r), self.parts[0]):
            assert len(image) == b - a
            buffer[a:b] = image
        self.numbers[0] = r.n, r.s, r.size

    # ---- Lines that several cases need ----
    def lend_from(self, at, sizes):
        """Parts of these sizes, from these places on."""
        self.run('lend ' + ' '.join('%d %d' % (a, a + size) for a, size in zip(at, sizes)))

    def written(self, file, at, content):
        """Writes bytes, by the words of eight that differ."""
        start, end = self.parts[0][file] if file < TEXT else (0, ROOM[TEXT])
        buffer, meant = self.buffers[file], self.buffers[file][start:end]
        meant[at:at + len(content)] = content
        for k in range(at, at + len(content), 8):
            k = min(k, end - start - 8)
            if buffer[start + k:start + k + 8] != meant[k:k + 8]:
                self.run('put %d %d %d' % (file, k, number_in(meant[k:k + 8])))
        assert buffer[start:end] == meant

    def begun(self, at, sizes, fill=b'\xaa\xbb\xcc\xdd'):
        """An empty register in parts of these sizes that held other bytes before."""
        self.lend_from(at, sizes)
        for file in range(4):
            self.run('fill %d 0 %d %d 0' % (file, sizes[file], fill[file]))
        self.run('told 0 0 0')
        return self.run('start')

    def append(self, chunk):
        self.written(TEXT, 0, chunk)
        return self.run('append 0 %d' % len(chunk))

    def append_steps(self, first, count):
        """A chunk whose bytes follow each other by steps of 7."""
        self.run('fill %d 0 %d %d 7' % (TEXT, count, first))
        return self.run('append 0 %d' % count)

    def sign(self, signature):
        self.written(TEXT, SIGNATURE_AT, signature)
        return self.run('sign %d' % SIGNATURE_AT)

    def told(self, *numbers):
        self.run('told %d %d %d' % numbers)

    @contextmanager
    def turned(self, *changes):
        """Bytes turned, and then turned back. A change is a file, a place in it and a mask."""
        self.turn(*changes)
        yield
        self.turn(*changes)

    def turn(self, *changes):
        for change in changes:
            self.run('flip %d %d %d' % change)


class Printed(Script):
    """A script whose answers are those that the program printed, from a remark on."""
    def __init__(self, printed, remark):
        super().__init__()
        self.printed = iter(printed[printed.index(remark):].splitlines())

    def run(self, line):
        printed = next(self.printed)
        super().run(line)
        assert printed == line or printed.startswith(line + ': ')
        return printed[len(line) + 2:]


SETTINGS = {'lend': Script.lend, 'told': Script.tell, 'swap': Script.swap, 'flip': Script.flip, 'put': Script.put, 'fill': Script.fill,
            'bring': Script.bring}


# ---- The calls ----
def digest(part):
    return node_hash(bytes(part)).hex()[:16]


@functools.lru_cache(maxsize=64)
def stepped(first, step, count):
    return bytes((first + step * p) % 256 for p in range(count))


def pair(answer):
    return '%d %d' % answer[1:] if answer[0] == 'done' else said(answer)


def rooted(answer):
    return '%s:%s' % (said(answer), root_beside(answer).hex())


def root_beside(answer):
    return answer[1] if answer[0] == 'done' else bytes(HASH)


def with_bytes(answer):
    return '%s:%s' % (said(answer), answer[1].hex() if answer[0] == 'done' else '')


def stored(answer):
    """The length, or why none is told, and what the 32 bytes lent for the hash then hold."""
    return '%d:%s' % (answer[2], answer[1].hex()) if answer[0] == 'done' else '%s:%s' % (said(answer), 'ee' * HASH)


def grown(r, text, upto, span):
    """Chunks and signatures of the samples, up to a count; a long register is taken from the images."""
    if upto < 1000:
        grow(r, upto, span)
    else:
        whole = sampled(upto, span)
        for image, right in zip(images_of(r), images_of(whole)):
            image[:len(right)] = right
        r.n, r.s, r.size = whole.n, whole.s, whole.size
    assert r.n == r.s == upto
    return 'done'


def listed(r, text, start, end, k, *lengths):
    """The lengths of more than a few chunks follow from their places and from a number."""
    if k > MOST_LENGTHS:
        lengths = [(5 * j + lengths[0]) % 23 for j in range(k)]
    assert len(lengths) == k
    return rooted(append_list(r, list(lengths), bytes(text[start:end])))


def sought(answer):
    return said(answer) if answer[0] == 'refused' else 'none' if answer[1] is None else str(answer[1])


def both_ways(quick, short, shown):
    """The answers of both ways to some numbers, from a first one on."""
    return lambda r, text, first, count: ''.join('%s|%s;' % (shown(quick(r, k)), shown(short(r, k))) for k in range(first, first + count))


def packed(r, text, chunk, room):
    """A packet made in a buffer of some bytes, the sum of what that buffer is the front of, and the packet's check."""
    out, behind = bytearray(b'\xee' * room), b'\xee' * (PACKET_ROOM - room)
    made = make_packet(r, chunk, out)
    length = made[1] if made[0] == 'done' else 0
    checked = check_packet(bytes(out[:length]), r.n, chunk, root_beside(root_hash(r)))
    return '%s %s %s' % (length if made[0] == 'done' else said(made), digest(out + behind), with_bytes(checked))


def got(first, second, name, chunk):
    """A read of the first register: 0 has it as the metadata register, beside the second, and 1 as the content register."""
    return with_bytes(read(second, first, 'content', chunk) if name else read(first, second, 'metadata', chunk))


def compared(first, second):
    return found(compare(first, second))


def found(answer):
    if answer[0] == 'refused':
        return answer[3] + ' ' + said(answer)
    if answer[0] == 'collision':
        return 'collision ' + (answer[1] if isinstance(answer[1], str) else '%s %d' % answer[1])
    return answer[0]


def cut(tree_part, bitfield_part):
    """A part of the tree entries, one of the bitfield's entries, and what both say together."""
    def answers(r, text, a, b, c, d):
        both = [tree_part(r, a, b), bitfield_part(r, c, d)]
        return ' '.join(map(said, both + [parts.together(both)]))
    return answers


def stepped_through(first, second, a, b):
    held = [said(parts.compare_held_part(r)) for r in (first, second)]
    return ' '.join(held + [found(parts.compare_roots_part(first, second)), found(parts.compare_walk_part(first, second, a, b))])


def checked(text, n, chunk, root, start, end):
    return with_bytes(check_packet(bytes(text[start:end]), n, chunk, bytes(text[root:root + HASH])))


def walked(text, n, chunk, root, *ends):
    first, second = (bytes(text[a:b]) for a, b in (ends[:2], ends[2:]))
    return found(compare_packets(first, second, n, chunk, bytes(text[root:root + HASH])))


WRITING = {'start': lambda r, text: said(start(r)), 'grow': grown, 'append': lambda r, text, a, b: rooted(append(r, bytes(text[a:b]))),
           'list': listed, 'sign': lambda r, text, at: said(store_signature(r, bytes(text[at:at + SIGNATURE]))),
           'release': lambda r, text, chunk: said(release(r, chunk))}
ASKING = {'hash': lambda r, text, output, a, b: hashlib.blake2b(bytes(text[a:b]), digest_size=output).hexdigest(),
          'show': lambda r, text, file, a, b: bytes([*images_of(r), text][file][a:b]).hex(), 'audit': lambda r, text: said(audit(r)), 'cut': cut(parts.audit_tree_part, parts.audit_bitfield_part),
          'root': lambda r, text: rooted(root_hash(r)), 'old': lambda r, text, m: rooted(old_root(r, m)),
          'preview': lambda r, text, a, b: rooted(preview(r, bytes(text[a:b]))), 'entry': lambda r, text, chunk: stored(stored_leaf(r, chunk)),
          'search': lambda r, text, number: sought(first_not_held(r, number)),
          'place': lambda r, text, chunk: pair(place_lookup(r, chunk)), 'byte': lambda r, text, offset: pair(byte_lookup(r, offset)), 'packet': packed,
          'splace': both_ways(place_lookup, short_place, pair), 'sbyte': both_ways(byte_lookup, short_byte, pair),
          'ssearch': both_ways(first_not_held, short_search, sought)}
COPY_WRITING = {'Make': lambda c, text: said(make_copy(c)), 'Release': WRITING['release'],
                'Take': lambda c, text, a, b, chunk, root: said(take_in(c, bytes(text[a:b]), chunk, bytes(text[root:root + HASH])))}
COPY_ASKING = {'Audit': lambda c, text: said(audit_copy(c)), 'Cut': cut(parts.copy_audit_tree_part, parts.copy_audit_bitfield_part),
               'Get': lambda c, text, chunk: with_bytes(read(c, c, 'content', chunk)),
               'Find': lambda c, text, a, b: sought(find(c, bytes(text[a:b]))), 'Node': lambda c, text, chunk: said(read_record(c, chunk)),
               **{name.capitalize(): ASKING[name] for name in ('root', 'old', 'entry', 'packet', 'splace', 'sbyte', 'ssearch')}}
ON_PAIRS = {'compare': compared, 'xwalk': stepped_through, 'get': got}
ON_TEXT = {'check': checked, 'walk': walked}


if __name__ == '__main__':
    script = Script()
    for module in (registers, lists, reads, audits, previews, old_roots, released, short_way, copies, page, leaves, cuts, dumps):
        module.cases(script)
    letters = {line.split(' ')[0]: line[:2] for line in script.lines}
    assert len(set(letters.values())) == len(letters)
    assert len('\n'.join(script.lines)) < MOST_BYTES
    print('\n'.join(script.lines if sys.argv[1:] == ['--stdin'] else script.answers))
