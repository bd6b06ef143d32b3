"""Audits and comparisons on several threads, and audits that are stopped and go on.

usage: python3 tests/tool/parts.py [ROUNDS [SEED]]

Archives of the model, whole and damaged, registers and copies: `audit` and `compare` print the same lines and end with the same status on 1, 2 and 7 threads,
and those are the model's. `--from` goes on at every kind of place; with another count, size or root hash, or in other words, it is refused. An audit of 1 GiB of
zeros is stopped by Ctrl-C at random moments, and goes on from what it printed; it asserts no time: one that ends before is tried again. So are commands that
audit first.
"""

import os
import random
import signal
import subprocess
import sys
import time

from program import PROGRAM, TARGET, expect, fresh, lay
from program import run as ran
import copy_model
import sleep_model as model

ROOM = os.path.join(TARGET, 'tests', 'tool', 'parts')
KINDS = 'tree', 'signatures', 'bitfield', 'data'
THREADS = '1', '2', '7'


def run(*words):
    one = ran(*words)
    return one.status, one.out, one.err


def laid(path, files):
    lay(path, files)
    return path


def files_of(metadata, content):
    return {name + '.' + kind: bytes(getattr(r, kind)) for name, r in (('metadata', metadata), ('content', content)) for kind in KINDS
            if getattr(r, kind, None) is not None}


def damaged(r, chance):
    """One to three bytes turned behind the headers."""
    for _ in range(chance.randrange(4)):
        image = getattr(r, chance.choice(('tree', 'bitfield', 'data')))
        if len(image) > 32:
            image[chance.randrange(32 if image is not r.data else 0, len(image))] ^= 1 << chance.randrange(8)
    return r


def register(chance, pieces):
    return damaged(model.register_of(pieces), chance)


def partial(chance, pieces):
    r = model.register_of(pieces)
    c = copy_model.Copy(bytearray(len(r.tree)), bytearray(len(r.bitfield)), bytearray(r.size), r.n, r.size)
    copy_model.make_copy(c)
    for chunk in chance.sample(range(r.n), min(r.n, 3)):
        out = bytearray(70000)
        length = model.make_packet(r, chunk, out)[1]
        copy_model.take_in(c, bytes(out[:length]), chunk, model.root_hash(r)[1])
    return damaged(c, chance)


def said(answer):
    """How a line of the audit begins, for the model's answer."""
    if answer[0] == 'done':
        return 'accepted'
    place = {'tree': '; at tree index %d', 'bitfield': '; at byte %d of'}.get(answer[2] and answer[2][0], '')
    return 'refused with %d:' % answer[1], place % answer[2][1] if place else ''


def begins(line, name, answer):
    words = said(answer)
    if words == 'accepted':
        return line.startswith('%s: accepted' % name)
    return line.startswith('%s: %s' % (name, words[0])) and words[1] in line


def all_alike(*words):
    """The same lines and the same status, however many threads."""
    several = [run(*words, '--threads', count) for count in THREADS]
    expect(all(one == several[0] for one in several), 'another answer', words, several)
    return several[0]


def audits(chance, rounds):
    for number in range(rounds):
        pieces = [chance.randbytes(chance.choice((0, 1, 9, 300))) for _ in range(chance.randrange(1, 40))]
        content = (partial if chance.random() < 0.4 else register)(chance, pieces)
        metadata = model.register_of([b'x'])
        folder = laid(os.path.join(ROOM, 'audit'), files_of(metadata, content))
        status, out, _ = all_alike('audit', folder, 'content')
        expected = copy_model.audit_copy(content) if isinstance(content, copy_model.Copy) else model.audit(content)
        expect(status == (0 if expected[0] == 'done' else 1) and begins(out.decode(), 'content', expected), 'another answer', out, expected)


def comparisons(chance, rounds):
    for number in range(rounds):
        pieces = [chance.randbytes(chance.choice((0, 1, 9, 300))) for _ in range(chance.randrange(1, 40))]
        metadata = model.register_of([b'x'])
        first, second = (laid(os.path.join(ROOM, name), files_of(metadata, register(chance, pieces))) for name in ('first', 'second'))
        status, out, _ = all_alike('compare', first, second)
        expect((status == 0) == (out.decode().count('the same chunks') == 2), 'another answer')


def marks(chance):
    pieces = [chance.randbytes(9) for _ in range(13)]
    whole, metadata = model.register_of(pieces), model.register_of([b'x'])
    root = model.root_hash(whole)[1].hex()
    folder = laid(os.path.join(ROOM, 'marks'), files_of(metadata, whole))
    for entry in (0, 1, 12, 24, 25):
        status, out, _ = all_alike('audit', folder, 'content', '--from', '%d,%d,%s,%d' % (whole.n, whole.size, root, entry))
        expect(status == 0 and out.decode().startswith('content: accepted from tree entry %d on' % entry), 'another answer', out)
    for mark, why in (('12,117,%s,5' % root, 'chunks'), ('13,116,%s,5' % root, 'bytes'), ('13,117,%s,5' % root[::-1], 'root hash'), ('13,117,unknown,5', 'root hash'),
                      ('13,117,%s,26' % root, 'no tree entry')):
        status, _, words = run('audit', folder, 'content', '--from', mark)
        expect(status == 1 and why in words.decode(), 'another answer', mark, words)
    for mark in ('', '13', '13,117,%s' % root, '13,117,xy,5', '13,117,%s,-1' % root, '13,117,%s,5,6' % root):
        status, _, words = run('audit', folder, 'content', '--from', mark)
        expect(status == 2, 'another answer', mark, words)
    mark = '13,117,%s,10' % root
    status, out, _ = all_alike('audit', folder, 'content', '--from', mark, '--root', root)
    expect(status == 0 and 'from tree entry 10 on' in out.decode() and out.decode().endswith('content: the root hash is the one given\n'), 'another answer', out)
    status, out, words = all_alike('audit', folder, 'content', '--from', mark, '--root', 64 * '0', '-q')
    expect(status == 1 and not out and 'another than the one given' in words.decode(), 'another answer', out, words)
    expect(all_alike('audit', folder, '-q')[:2] == (0, b'') == all_alike('compare', folder, folder, '-q')[:2], 'not quiet')
    expect(run('audit', folder, '--from', mark)[0] == 2 and run('audit', folder, '--threads', '0')[0] == 2 and run('compare', folder, folder, '--threads', 'x')[0] == 2, 'another answer')
    whole.tree[32 + 40 * 4] ^= 1  # before the mark: this audit says nothing of it
    folder = laid(os.path.join(ROOM, 'marks'), files_of(metadata, whole))
    expect(run('audit', folder, 'content', '--from', mark)[0] == 0 and run('audit', folder, 'content')[0] == 1, 'another answer')
    whole.tree[32 + 40 * 20] ^= 1
    folder = laid(os.path.join(ROOM, 'marks'), files_of(metadata, whole))
    status, out, _ = run('audit', folder, 'content', '--from', mark)
    expect(status == 1 and 'from tree entry 10 on' in out.decode() and 'tree index 20' in out.decode(), 'another answer', out)


def large(chunks):
    """A register of chunks of 65,536 zeros: one leaf hash, and as many parents as there are. The data file has no bytes on the disk."""
    entries = [model.HOLE] * model.tree_entries(chunks)
    at_depth, d = model.leaf_node(bytes(65536), model.node_hash), 0
    while (1 << d) <= chunks:
        for block in range(chunks >> d):
            entries[model.index_of(d, block)] = model.entry_bytes(at_depth)
        at_depth, d = model.parent_node(at_depth, at_depth, model.node_hash), d + 1
    tree = model.TREE_HEADER + b''.join(entries)
    return tree, model.SIGNATURES_HEADER + bytes(64 * chunks), model.bitfield_image(chunks)


def stopped(chance, chunks=16384):
    folder = laid(os.path.join(ROOM, 'large'), files_of(model.register_of([b'x']), model.register_of([])))
    for kind, image in zip(KINDS, large(chunks)):
        with open(os.path.join(folder, 'content.' + kind), 'wb') as file:
            file.write(image)
    os.truncate(os.path.join(folder, 'content.data'), 65536 * chunks)
    words = [PROGRAM, 'audit', folder, 'content', '--threads', '2']
    mark, begun = None, 0
    for _ in range(200):
        process = subprocess.Popen(words + (['--from', mark] if mark else []), stdout=subprocess.PIPE, stderr=subprocess.PIPE)
        time.sleep(chance.random() * 0.4)
        process.send_signal(signal.SIGINT)
        out, err = process.communicate()
        if process.returncode == 0:
            expect(out.decode().startswith('content: accepted' + (' from tree entry' if mark else '')), 'another answer', out)
            if begun:
                break
            mark = None
        elif process.returncode == 130:
            expect(str(chunks) in err.decode() and 'root hash' in err.decode(), 'another answer', err)
            mark, begun = err.decode().split('--from ')[1].split('`')[0], begun + 1
        else:
            expect(process.returncode == -signal.SIGINT, 'another answer', process.returncode, err)  # before the program has begun its parts
    print('audits in parts: stopped %d times, and went on' % begun)
    others_stopped(chance, folder)


def others_stopped(chance, folder):
    """Commands that audit first are stopped in their audit too, and by nothing behind it: `verify` ends while its command runs."""
    met = {}
    for words in (['sheet', folder], ['verify', folder, 'content', '--with', 'true'], ['compare', folder, folder]):
        for _ in range(100):
            process = subprocess.Popen([PROGRAM, *words], stdout=subprocess.PIPE, stderr=subprocess.PIPE)
            time.sleep(chance.random() * 0.4)
            process.send_signal(signal.SIGINT)
            _, err = process.communicate()
            expect(process.returncode in (0, 1, 130, -signal.SIGINT) and (process.returncode != 130 or b'stopped' in err), 'another answer', words, process.returncode, err)
            met[words[0]] = met.get(words[0], False) or process.returncode == 130
            if met[words[0]]:
                break
    expect(all(met.values()), 'not stopped', met)
    small = laid(os.path.join(ROOM, 'small'), files_of(model.register_of([]), signed_once(model.register_of([b'x']))))
    process = subprocess.Popen([PROGRAM, 'verify', small, 'content', '--with', 'touch %s; sleep 5' % os.path.join(ROOM, 'met')], stderr=subprocess.PIPE)
    while not os.path.exists(os.path.join(ROOM, 'met')):
        time.sleep(0.02)
    process.send_signal(signal.SIGINT)
    expect(process.wait(30) == -signal.SIGINT, 'not ended', process.returncode)


def signed_once(r):
    r.signatures[32:] = 64 * b's'
    return r


def main(rounds=60, seed=20170901):
    chance = random.Random(int(seed))
    fresh(ROOM)
    audits(chance, int(rounds))
    comparisons(chance, int(rounds) // 2)
    marks(chance)
    stopped(chance)
    print('audits in parts: %d archives and %d pairs on 1, 2 and 7 threads give one answer, and it is the model\'s' % (int(rounds), int(rounds) // 2))


main(*sys.argv[1:])
