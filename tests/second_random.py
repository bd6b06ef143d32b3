"""The second readers beside the model, on random input: what was written from FORMAT.md alone, and what was written from the papers, give the same answers
on lists, needs, comparisons, first root hashes, paths and copies, damaged ones among them, under BLAKE2b and under hash functions that collide.

usage: python3 tests/second_random.py [ROUNDS [SEED]]
"""

import hashlib
import os
import random
import sys

sys.path.insert(0, os.path.join(os.path.dirname(os.path.abspath(__file__)), 'model'))
import copy_model
import needs
import record_model
import second_answers
import second_reader
import sleep_model as model
from samples import said

LAST = 2 ** 64 - 1
ROOM = (80 * 300, 64 * 300, 3328, 200000)  # behind the used sizes, for lists


def blake2b(message):
    return hashlib.blake2b(message, digest_size=32).digest()


def of_one_bit(message):
    return bytes([blake2b(message)[0] % 2]) * 32


def of_no_bit(message):
    return bytes(32)


def words(answer):
    """The model's answer in the words of the page's examples."""
    if answer[0] == 'refused':
        return said(answer)
    shown = [part.hex() if isinstance(part, (bytes, bytearray)) else 'none' if part is None else str(part) for part in answer[1:]]
    return ' '.join(['done'] + [part for part in shown if part])


def outcome(answer):
    if answer[0] == 'refused':
        return '%s %s' % (answer[3], said(answer))
    if answer[0] == 'collision':
        return 'collision ' + (answer[1] if isinstance(answer[1], str) else '%s %d' % answer[1])
    return answer[0]


def second(r):
    """The model's register as the second reader has it."""
    files = dict(zip(second_reader.FILES, map(bytearray, model.images_of(r))))
    return second_reader.Register(files, r.n, r.s, r.size)


class Rounds:
    def __init__(self, seed):
        self.random, self.asked = random.Random(seed), 0

    def same(self, what, ours, theirs):
        self.asked += 1
        if ours != theirs:
            raise SystemExit('%s: the model %s, the second reader %s' % (what, ours, theirs))

    def rarely(self, part):
        return self.random.random() < part

    def chunks(self, count):
        return [bytes(self.random.choice(b'ab') for _ in range(self.random.choice((0, 0, 1, 2, 3, 9)))) for _ in range(count)]

    def damage(self, images):
        """A bit turned anywhere, or near the front, or another length in an entry."""
        for _ in range(self.random.choice((1, 1, 2, 4))):
            image = self.random.choice([image for image in images if image])
            image[self.random.randrange(len(image) if self.rarely(0.5) else min(len(image), 200))] ^= 1 << self.random.randrange(8)
            entries = (len(images[0]) - 32) // 40
            if entries and self.rarely(0.4):
                at = 64 + 40 * self.random.randrange(entries)
                images[0][at:at + 8] = self.random.choice((0, 1, 3, 65536, 65537, 2 ** 63, LAST)).to_bytes(8, 'big')

    def round(self):
        self.F = self.random.choice((blake2b, blake2b, of_one_bit, of_no_bit))
        second_reader.H = self.F
        chunks = self.chunks(self.random.choice((0, 1, 2, 3, 4, 5, 7, 8, 9, 13, 20)))
        self.registers(chunks)
        self.lists(chunks)
        self.jobs()
        self.copies()
        second_reader.H = blake2b
        self.paths()

    def registers(self, chunks):
        r, other = self.register(chunks), self.register(chunks if self.rarely(0.5) else self.chunks(len(chunks)))
        for m in (0, 1, len(chunks), len(chunks) + 1):
            self.same('the first %d' % m, words(model.old_root(r, m, self.F)), second_reader.answer(second_answers.root_of_first, second(r), m))
        for k in (0, 1, len(chunks), len(chunks) + 1):
            self.same('leaf %d' % k, words(model.stored_leaf(r, k)), second_reader.answer(second_answers.stored_leaf, second(r), k))
        self.same('comparison', outcome(model.compare(r, other, self.F)), second_answers.compare(second(r), second(other)))

    def register(self, chunks):
        r = model.register_of(chunks, self.F)
        for k in range(r.n):
            if self.rarely(0.05):
                model.release(r, k)
        if self.rarely(0.3):
            self.damage(model.images_of(r))
        if self.rarely(0.2):
            r.n, r.s, r.size = self.random.choice(((r.n + 1, r.s, r.size), (r.n, abs(r.s - 1), r.size), (r.n, r.s, r.size + 1), (model.MOST_CHUNKS + 1, r.s, r.size)))
        return r

    def lists(self, chunks):
        """On a register as it should be, in files with room; the second reader's files grow."""
        r = model.register_of(chunks, self.F)
        if r.n and self.rarely(0.2):
            r.s -= 1
            del r.signatures[-64:]
        theirs, several = second(r), self.chunks(self.random.choice((0, 1, 2, 3, 5, 40)))
        lengths, lent = [len(chunk) for chunk in several], b''.join(several) + bytes(self.rarely(0.1))
        if self.rarely(0.1):
            lengths, lent = lengths + [65537], lent + bytes(65537)
        for image, room in zip(model.images_of(r), ROOM):
            image += bytes(room)
        answer = model.append_list(r, lengths, lent, self.F)
        told = 'done %d %d %d %s' % (r.n, r.s, r.size, answer[1].hex()) if answer[0] == 'done' else said(answer)
        self.same('list', told, second_reader.answer(second_answers.append_list, theirs, lengths, lent))
        for name, image, used in zip(second_reader.FILES, model.images_of(r), model.used_sizes(r.n, r.s, r.size)):
            self.same('files behind the list: ' + name, bytes(image[:used]), bytes(theirs.files[name]))

    def jobs(self):
        n, size = self.random.choice((0, 1, 5, 8191, 1048575, 1048576, 1048577)), self.random.choice((0, 5, 65536 * 5, 65536 * 5 + 1, LAST))
        lengths = [self.random.choice((0, 118, 119, 120, 65536, 65537 if self.rarely(0.05) else 3)) for _ in range(self.random.choice((0, 1, 3, 40, 256, 257)))]
        self.same('needs', words(needs.needs(n, size, lengths)), second_reader.answer(second_answers.needs, n, size, lengths))

    def copies(self):
        n = self.random.choice((1, 2, 3, 5, 8, 13))
        whole = model.register_of(self.chunks(n), self.F)
        size = whole.size + self.rarely(0.1)
        ours, theirs = copy_model.Copy(*map(bytearray, copy_model.copy_sizes(n, size)), n, size), second_answers.Copy(n, size)
        copy_model.make_copy(ours)
        for _ in range(self.random.choice((0, 1, 2, 4))):
            self.taken(ours, theirs, whole if self.rarely(0.8) else model.register_of(self.chunks(n), self.F))
        if self.rarely(0.5):
            self.damage(ours.images())
            for name, image in zip(theirs.files, ours.images()):
                theirs.files[name][:] = image
        self.same('copy: audit', words(copy_model.audit_copy(ours, self.F)), second_reader.answer(second_answers.audit_copy, theirs))
        self.same('copy: root', words(model.root_hash(ours, self.F)), second_reader.answer(lambda: (second_answers.copy_root_hash(theirs),)))
        for k in range(n + 1):
            self.same('copy: place', words(model.place_lookup(ours, k)), second_reader.answer(second_answers.copy_find, theirs, k))
            self.same('copy: leaf', words(model.stored_leaf(ours, k)), second_reader.answer(second_answers.copy_stored_leaf, theirs, k))
            self.same('copy: short', words(model.short_place(ours, k)), second_reader.answer(second_answers.copy_short_find, theirs, k))
            self.same('copy: read', words(model.read(ours, ours, 'content', k, self.F)), second_reader.answer(second_answers.copy_read, theirs, k).strip())
        for p in range(size + 2):
            self.same('copy: byte', words(model.byte_lookup(ours, p)), second_reader.answer(second_answers.copy_find_byte, theirs, p))

    def taken(self, ours, theirs, source):
        k, out = self.random.randrange(source.n), bytearray(4000)
        packet = out[:model.make_packet(source, k, out, self.F)[1]]
        if self.rarely(0.2):
            packet[self.random.randrange(len(packet))] ^= 1 << self.random.randrange(8)
        root = self.F(source.root_message())
        answers = words(copy_model.take_in(ours, bytes(packet), k, root, self.F)), second_reader.answer(second_answers.take_in, theirs, bytes(packet), k, root)
        self.same('take', *answers)
        for name, image in zip(theirs.files, ours.images()):
            self.same('files behind the taking in: ' + name, bytes(image), bytes(theirs.files[name]))

    def paths(self):
        records = [record_model.header_bytes(bytes(32))] + [record_model.node_bytes(self.node()) for _ in range(self.random.randrange(5))]
        if self.rarely(0.4):
            k = self.random.randrange(len(records))
            turned = bytearray(records[k])
            turned[self.random.randrange(len(turned))] ^= 1 << self.random.randrange(8)
            records[k] = bytes(turned)
        r = model.register_of(records[self.rarely(0.2):])
        if r.n and self.rarely(0.2):
            model.release(r, self.random.randrange(r.n))
        for path in (b'/a', b'/b', b'a', b''):
            self.same('find', words(record_model.find(r, path)), second_reader.answer(lambda: (second_answers.find_path(second(r), path),)))

    def node(self):
        choose = self.random.choice
        stat = choose((None, record_model.Stat(mode=choose((0, 2 ** 32 - 1, 2 ** 32)), size=choose((None, 0, 300, LAST)))))
        writers = [record_model.Writer(bytes(32), choose((None, b'', b'rw')))] * choose((0, 1, 8, 9))
        return record_model.Node(choose((b'/a', b'/b', b'/cc')), stat, choose((None, b'', b't')), writers, choose((None, 0, 128)))


def main(rounds=200, seed=20261116):
    several = Rounds(int(seed))
    for _ in range(int(rounds)):
        several.round()
    print('the second readers: %d answers and files on random input, as the model has them' % several.asked)


if __name__ == '__main__':
    main(*sys.argv[1:])
