"""Copies that follow their archive, beside the model: packets of the first chunks, files of many packets and what they are taken in as, copies for named
pieces, and copies that grow; and files of packets that somebody prepared.

usage: python3 tests/tool/follow.py [ROUNDS [SEED]]

The model of a file of packets is tests/model/packet_file.py, written from docs/FORMAT.md; that of copies tests/model/copy_model.py. Every file of a copy
is compared with the model's after each command that writes.
"""

import copy
import os
import random
import re
import shutil
import sys

from answers import Refused, as_files, given, registers_in
from program import FILES, PAGE, TARGET, done, expect, fresh, lay, run, under
import copy_model
import packet_file
import record_model as records
import sleep_model as model

ROOM = os.path.join(TARGET, 'tests', 'tool', 'follow')
OFFICE, COPY, FILE, INPUTS = (os.path.join(ROOM, name) for name in ('office', 'room', 'packets', 'inputs'))
SIGNER = os.path.join(TARGET, 'tests', 'signer')
SIGNED = 'test "$2$2" = "$3"'  # what that signer gives
NAMES = ('metadata', 'content')


class Counts:
    packets = files = wrong = taken = grown = 0


# ---- what the model gives ----
def first_of(r, m):
    """The register of the first m chunks, whole as it was then, with what is released now."""
    chunks = [None if not model.held(r, k) else given(model.read(r, r, 'content', k)) for k in range(m)]
    sizes = [given(model.stored_leaf(r, k))[1] for k in range(m)]
    whole = model.register_of([bytes(size) if chunk is None else chunk for chunk, size in zip(chunks, sizes)])
    small = copy.deepcopy(r)
    small.n, small.s, small.size = m, m, sum(sizes)
    small.tree = small.tree[:len(whole.tree)]
    small.signatures, small.data = small.signatures[:32 + 64 * m], small.data[:small.size]
    for index in range(model.tree_entries(m)):
        if not model.filled(m, index):
            small.tree[32 + 40 * index:72 + 40 * index] = bytes(40)
    small.bitfield = bytearray(model.bitfield_image(m, frozenset(k for k in range(m) if chunks[k] is None)))
    return small


def packet(r, chunk):
    buffer = bytearray(70000)
    return bytes(buffer[:given(model.make_packet(r, chunk, buffer))])


def held(r):
    """The chunks that are held; none in a copy that knows no root."""
    return [k for k in range(r.n) if model.held(r, k)]


def wanted(metadata, content, names):
    """The chunks of names or folders, and the records that finding them takes."""
    found = {}
    for k in reversed(range(1, metadata.n)):
        node = given(records.read_record(metadata, k))
        found.setdefault(node.path, (k, node.stat))
    meant = [one for path, one in found.items() for name in names if path == name or (path.startswith(name.rstrip(b'/') + b'/') and name.rstrip(b'/') not in found)]
    chunks = sorted({k for _, stat in meant for k in range(stat.offset, stat.offset + stat.blocks)})
    return [sorted({0, *range(min(record for record, _ in meant), metadata.n)}), chunks]


def under_roots(m):
    before, found = 0, []
    for power in (1 << bit for bit in reversed(range(21))):
        if m & power:
            found.append(range(before, before + power))
            before += power
    return found


def bridged(office, m, chunks):
    """With a chunk under each root of m."""
    chunks = set(chunks)
    for below in under_roots(m):
        if not chunks & set(below):
            chunks.add(next(k for k in below if model.held(office, k)))
    return chunks


def file_of(registers, chunks):
    about = []
    for r in registers:
        signature = bytes(r.signatures[32 + 64 * (r.n - 1):32 + 64 * r.n]) if r.n else bytes(64)
        about.append(packet_file.About(r.n, r.size, given(model.root_hash(r)), signature))
    return packet_file.made(about, [[(k, packet(r, k)) for k in own] for r, own in zip(registers, chunks)])


def copy_of(r, chunks):
    """A copy for a register's counts that took in these chunks."""
    c = copy_model.Copy(*map(bytearray, copy_model.copy_sizes(r.n, r.size)), r.n, r.size)
    given(copy_model.make_copy(c) + (None,))
    for k in chunks:
        given(copy_model.take_in(c, packet(r, k), k, given(model.root_hash(r))) + (None,))
    return c


def is_now(folder, registers, what, *shown):
    now = under(folder)
    expect({name: now[name] for name in FILES if name in now} == as_files(registers), 'other files: ' + what, *shown)
    expect(set(now) == set(as_files(registers)) | {PAGE}, 'files came or went: ' + what, sorted(now))
    for r in registers:
        given(copy_model.audit_copy(r) + (None,))
    done('audit', folder)


def refused(words, what):
    """A refusal in words, and nothing changed."""
    before = under(COPY)
    ran = run(*words)
    expect(ran.status in (1, 2) and re.fullmatch(rb'(sleep-archive: [^\n]+\n)+', ran.err) and under(COPY) == before, 'not refused, or changed: ' + what, words, ran)
    return ran


# ---- rounds ----
def office_adds(rng, count):
    folder = fresh(INPUTS)
    for _ in range(count):
        path = os.path.join(folder, rng.choice(['coat', 'hat', 'hat/brim', '.']), str(rng.randrange(30)))
        os.makedirs(os.path.dirname(path), exist_ok=True)
        with open(path, 'wb') as file:
            file.write(rng.randbytes(rng.choice([0, 1, 100, rng.randrange(3000), 9000])))
    done('add', OFFICE, '--as', '/', folder, '--signer', SIGNER, '--split', '4096')


def some_names(rng, office):
    """Names of pieces that are held, or the folders of some."""
    metadata, content = office
    found = {}
    for k in reversed(range(1, metadata.n)):
        node = given(records.read_record(metadata, k))
        found.setdefault(node.path, node.stat)
    whole = [path for path, stat in found.items() if all(model.held(content, k) for k in range(stat.offset, stat.offset + stat.blocks))]
    names = rng.sample(whole, rng.randrange(1, min(6, len(whole) + 1)))
    folders = {path[:path.rindex(b'/')] for path in whole} - {b''}
    for folder in sorted(folders):
        if rng.random() < 0.2 and folder not in found and all(path in whole for path in found if path.startswith(folder + b'/')):
            names.append(folder + b'/' * rng.randrange(2))
    return names


def firsts(rng, office):
    """Packets of the first chunks."""
    which = rng.randrange(2)
    r = office[which]
    m = rng.randrange(r.n + 2)
    chunk = rng.randrange(max(1, m + 1))
    words = ['packet', 'make', OFFICE, str(chunk), '--first', str(m)] + (['--metadata'] if which == 0 else [])
    ran = run(*words)
    if m > r.n or chunk >= m:
        expect(ran.status == 1 and [number for number, _ in ran.refusals()] == [9], 'a packet of no chunk', words, ran)
    elif not model.held(r, chunk):
        expect(ran.status == 1 and ran.refusals() == [(18, ('tree', 2 * chunk))], 'a packet of what is not held', words, ran)
    else:
        expect(ran.status == 0 and ran.out == packet(first_of(r, m), chunk), 'another packet of the first chunks', words, ran)
        given(model.check_packet(ran.out, m, chunk, given(model.old_root(r, m))))
        root = done('root', OFFICE, NAMES[which], '--first', str(m)).out.split()[1].decode()
        done('packet', 'check', '-', '--chunks', str(m), '--number', str(chunk), '--root', root, stdin=ran.out)
        Counts.packets += 1


def roots_of(registers):
    return ','.join(given(model.root_hash(r)).hex() for r in registers)


def trusting(rng, registers):
    return rng.choice([['--root', roots_of(registers)], ['--of', OFFICE], ['--with', SIGNED]])


def taken(rng, office):
    """A file of packets is made, and taken in by a fresh copy and by one that holds other pieces."""
    names = some_names(rng, office)
    chunks = wanted(*office, names)
    done('packets', 'make', OFFICE, *map(os.fsdecode, names), '-o', FILE)
    with open(FILE, 'rb') as file:
        content = file.read()
    expect(content == file_of(office, chunks), 'another file of packets', names)
    packet_file.read(content)
    shutil.rmtree(COPY, ignore_errors=True)
    done('copy', COPY, '--of', OFFICE)
    refused(['packets', 'take', COPY, FILE], 'under the root hash of the file')
    refused(['packets', 'take', COPY, FILE, '--with', 'false'], 'under a signature that is not good')
    refused(['packets', 'take', COPY, FILE, '--root', 64 * '0' + ',' + 64 * '1'], 'under other root hashes')
    done('packets', 'take', COPY, FILE, *trusting(rng, office))
    now = [copy_of(r, own) for r, own in zip(office, chunks)]
    is_now(COPY, now, 'taken in', names)
    names = some_names(rng, office)
    more = wanted(*office, names)
    done('packets', 'make', OFFICE, *map(os.fsdecode, names), '-o', FILE)
    done('packets', 'take', COPY, FILE)
    is_now(COPY, [copy_of(r, sorted({*own, *others})) for r, own, others in zip(office, chunks, more)], 'taken in behind others', names)
    Counts.files += 2


def copied(rng, office):
    """A copy for named pieces, in which their names work."""
    names = some_names(rng, office)
    chunks = wanted(*office, names)
    shutil.rmtree(COPY, ignore_errors=True)
    done('copy', COPY, '--of', OFFICE, '--names', *map(os.fsdecode, names))
    is_now(COPY, [copy_of(r, own) for r, own in zip(office, chunks)], 'a copy for names', names)
    listed = done('list', COPY, '-0').out.split(b'\0')
    for name in names:
        if name in listed:
            expect(done('get', COPY, os.fsdecode(name)).out == done('get', OFFICE, os.fsdecode(name)).out, 'another piece', name)
    return chunks


def grown(rng, before, office):
    """The copy that there is follows the archive, by it or by a file."""
    old = registers_in(COPY)
    state, by_file = under(COPY), rng.random() < 0.5
    fresh_copy = [not all(map(c.known, model.roots(c.n))) for c in old]
    chunks, surplus = [], []
    for k, (was, now) in enumerate(zip(old, office)):
        own = [] if fresh_copy[k] else held(was)
        more = set(range(was.n, now.n)) if k == 0 else set()
        if by_file:
            chunks.append(sorted(bridged(now, was.n, more) | set(own)))
            surplus.append([])
        elif fresh_copy[k]:
            chunks.append([])
            surplus.append([])
        else:
            there = [chunk for chunk in own if model.held(now, chunk)]
            bridges = bridged(now, was.n, there)
            chunks.append(sorted(bridges | more | set(own)))
            surplus.append(sorted(bridges - set(own)))
    if by_file:
        done('packets', 'make', OFFICE, '--since', '%d,%d' % tuple(c.n for c in old), '-o', FILE)
        refused(['grow', COPY, FILE], 'under the root hash of the file')
        refused(['grow', COPY, FILE, '--root', 64 * '0' + ',' + 64 * '1'], 'under other root hashes')
        done('grow', COPY, FILE, *trusting(rng, office))
    else:
        done('grow', COPY, '--of', OFFICE)
    expected = []
    for r, was, own, gone in zip(office, old, chunks, surplus):
        c = copy_model.Copy(*map(bytearray, copy_model.copy_sizes(r.n, r.size)), r.n, r.size)
        given(copy_model.make_copy(c) + (None,))
        for k in own:
            # What the office released and the copy holds has the bytes that the copy has.
            given(copy_model.take_in(c, packet_now(r, was, k), k, given(model.root_hash(r))) + (None,))
        for k in gone:
            given(model.release(c, k) + (None,))
        expected.append(c)
    is_now(COPY, expected, 'grown', by_file, state.keys())
    Counts.grown += 1


def packet_now(r, was, k):
    """The packet of a chunk as the register is now, with the bytes that the office or the copy has."""
    if model.held(r, k):
        return packet(r, k)
    back = copy.deepcopy(r)
    start, length = given(model.place_lookup(r, k))
    back.data[start:start + length] = was.data[start:start + length]
    model.set_bit(back, k, 8192, 0)
    return packet(back, k)


# ---- files that somebody prepared ----
def prepared(rng, content, other):
    """A file as it must not be, and what was done to it."""
    registers, packets = packet_file.read(content)
    kind = rng.choice(['byte', 'byte', 'cut', 'longer', 'count', 'count', 'huge', 'twice', 'turned', 'other', 'length', 'number', 'n', 'size'])
    out, which = bytearray(content), rng.randrange(2)
    head = 16 + 120 * which
    if kind == 'byte':
        out[rng.randrange(len(out))] ^= 1 << rng.randrange(8)
    elif kind == 'cut':
        del out[rng.choice([0, 15, 16, 135, 255, 256, 267, 268, rng.randrange(len(out))]):]
    elif kind == 'longer':
        out += rng.randbytes(rng.choice([1, 12, 100]))
    elif kind == 'count':
        out[head + 112:head + 120] = packet_file.number(8, max(0, len(packets[which]) + rng.choice([-1, 1])))
    elif kind == 'huge':
        at = head + rng.choice([0, 8, 112])
        out[at:at + 8] = packet_file.number(8, rng.choice([1 << 20, (1 << 20) + 1, 1 << 40, (1 << 64) - 1]))
    elif kind in ('twice', 'turned'):
        own = packets[which]
        if own:
            at = rng.randrange(len(own))
            own[at:at + 1] = [own[at], own[at]] if kind == 'twice' else [own[-1], own[at]]
        for about in registers:
            about.count = None
        return packet_file.made(registers, packets), kind
    elif kind == 'other':
        theirs = packet_file.read(other)
        packets[which] = theirs[1][which]
        registers[which].count = None
        return packet_file.made(registers, packets), kind
    elif kind in ('length', 'number'):
        at, own = 256, packets[0] + packets[1]
        if own:
            for _, one in own[:rng.randrange(len(own))]:
                at += 12 + len(one)
            width = (at + 8, 4) if kind == 'length' else (at, 8)
            value = rng.choice([0, 5, 67062, 67063, (1 << 32) - 1, rng.randrange(300)])
            out[width[0]:width[0] + width[1]] = packet_file.number(width[1], value)
    else:
        at = head + (0 if kind == 'n' else 8)
        value = int.from_bytes(out[at:at + 8], 'big') + rng.choice([-1, 1])
        out[at:at + 8] = packet_file.number(8, max(0, value))
    return bytes(out), kind


def hostile(rng, office, content, other, count):
    """What is done with prepared files is what the model does: taken in where each packet is right, else told, and nothing changed."""
    before = under(COPY)
    for _ in range(count):
        sent, kind = prepared(rng, content, other)
        with open(FILE, 'wb') as file:
            file.write(sent)
        lay(COPY, before)
        registers = registers_in(COPY)
        try:
            about, packets = packet_file.read(sent)
            for r, told, own, whole in zip(registers, about, packets, office):
                if own and (told.n, told.size) != (r.n, r.size):
                    raise packet_file.Wrong
                for k, one in own:
                    given(copy_model.take_in(r, one, k, given(model.root_hash(whole))) + (None,))
        except (packet_file.Wrong, Refused):
            refused(['packets', 'take', COPY, FILE, '--root', roots_of(office)], kind)
            run('packets', 'show', FILE)
            Counts.wrong += 1
        else:
            done('packets', 'take', COPY, FILE, '--root', roots_of(office))
            is_now(COPY, registers, 'a prepared file that is right', kind)
            Counts.taken += 1
        refused(['grow', COPY, FILE, '--root', 64 * '0' + ',' + 64 * '1'], 'grow under another root hash')
    lay(COPY, before)


def another(rng, office):
    """Another archive with as many chunks and bytes: its packets, and a copy that would follow it."""
    sizes = [given(model.stored_leaf(office[1], k))[1] for k in range(office[1].n)]
    forged = model.register_of([rng.randbytes(size) for size in sizes])
    forged.signatures, forged.s = office[1].signatures, office[1].n
    chunks = [sorted(rng.sample(range(r.n), min(r.n, 4))) for r in office]
    return file_of([office[0], forged], [[k for k in chunks[0] if model.held(office[0], k)], chunks[1]])


def main(rounds, seed):
    rng = random.Random(seed)
    os.umask(0o022)
    fresh(ROOM)
    for _ in range(rounds):
        shutil.rmtree(OFFICE, ignore_errors=True)
        done('new', OFFICE)
        for _ in range(rng.choice([1, 1, 2])):
            office_adds(rng, rng.choice([1, 2, 5, 12]))
        office = registers_in(OFFICE)
        for _ in range(4):
            firsts(rng, office)
        taken(rng, office)
        copied(rng, office)
        if rng.random() < 0.4:
            for chunk in rng.sample(range(office[1].n), rng.randrange(office[1].n)):
                run('release', rng.choice([OFFICE, OFFICE, COPY]), str(chunk))
        for _ in range(rng.choice([1, 2])):
            before = registers_in(OFFICE)
            office_adds(rng, rng.choice([1, 3, 9]))
            office = registers_in(OFFICE)
            if all(any(model.held(office[1], k) for k in below) for below in under_roots(registers_in(COPY)[1].n)):
                grown(rng, before, office)
        if all(map(len, map(held, office))) and registers_in(COPY)[1].n == office[1].n:
            names = some_names(rng, office) if held(office[1]) else []
            if names:
                done('packets', 'make', OFFICE, *map(os.fsdecode, names), '-o', FILE)
                with open(FILE, 'rb') as file:
                    content = file.read()
                hostile(rng, office, content, another(rng, office), 12)
        if rng.random() < 0.3:
            shutil.rmtree(COPY)
            done('copy', COPY, '--of', OFFICE)
            office_adds(rng, 3)
            grown(rng, office, registers_in(OFFICE))
    expect(rounds < 5 or min(Counts.wrong, Counts.taken, Counts.grown) > 0, 'something was not met', vars(Counts))
    print('follow: %d packets of first chunks, %d files of packets taken in, %d copies grown, as the model says; %d prepared files told and %d of them right'
          % (Counts.packets, Counts.files, Counts.grown, Counts.wrong, Counts.taken))


if __name__ == '__main__':
    main(*[int(word) for word in sys.argv[1:3]] + [15, 1][len(sys.argv[1:3]):])
