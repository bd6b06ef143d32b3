"""Folders in and out again: `add` of folders with a signer, pieces of several chunks, `export`, each beside the model or beside the folder itself; and what
is refused, with nothing changed.

usage: python3 tests/tool/folders.py [SEED]

The files of an archive after an `add` are compared byte by byte with what the model makes of the same pieces: the records, the sets, and for each set one
signature, of which tests/signer.c makes the root hash twice.
"""

import os
import pty
import random
import shutil
import socket
import stat
import struct
import subprocess
import sys

from program import KINDS, PROGRAM, TARGET, UNSYNCED, done, environment, expect, fresh, run, under
import record_model as records
import sleep_model as model

ROOM = os.path.join(TARGET, 'tests', 'tool', 'folders')
SIGNER = os.path.join(TARGET, 'tests', 'signer')
SIGN = ['--signer', SIGNER]
SIGN_EACH = ['--sign-with', SIGNER]
MOST = 256


# ---- what an archive should be ----
class Expected:
    """An archive as pieces make it: its chunks and records, and where the sets of each end."""

    def __init__(self):
        self.chunks, self.records, self.ends = [], [], {'content': [], 'metadata': []}
        self.open, self.open_records, self.start = 0, [records.header_bytes(bytes(32))], 0

    def close(self):
        """The chunks and records that no set has yet become one of each register. A Header alone waits for a record."""
        if self.open:
            self.ends['content'].append(len(self.chunks))
        if self.open_records and (self.records or len(self.open_records) > 1):
            self.records += self.open_records
            self.ends['metadata'].append(len(self.records))
            self.open_records = []
        self.open = 0

    def add(self, name, mode, chunks, mtime=None):
        if len(chunks) <= MOST < self.open + len(chunks):
            self.close()
        first, start = len(self.chunks), self.start
        for chunk in chunks:
            if self.open == MOST:
                self.close()
            self.chunks.append(chunk)
            self.open, self.start = self.open + 1, self.start + len(chunk)
        record = bytearray(4096)
        size = sum(map(len, chunks))
        written = records.write_node(records.Node(name, records.Stat(mode=mode, size=size, blocks=len(chunks), offset=first, byte_offset=start, mtime=mtime)), record)
        expect(written[0] == 'done', 'no record', name)
        self.open_records.append(bytes(record[:written[1]]))
        if MOST in (self.open, len(self.open_records)):
            self.close()

    def files(self):
        self.close()
        found = {}
        for name, chunks in (('metadata', self.records), ('content', self.chunks)):
            r = model.register_of(chunks)
            ends, signatures = set(self.ends[name]), b''
            for k in range(1, r.n + 1):
                signatures += 2 * model.old_root(r, k)[1] if k in ends else bytes(64)
            found.update({'%s.%s' % (name, kind): bytes(getattr(r, kind)) for kind in KINDS})
            found[name + '.signatures'] = found[name + '.signatures'][:32] + signatures
        return found


def cut(content, size):
    return [content[at:at + size] for at in range(0, max(1, len(content)), size)]


def folder_of(rng, sizes, depth=2):
    """Files of these sizes in a folder and folders in it: name below it to content."""
    found = {}
    for k, size in enumerate(sizes):
        below = '/'.join(rng.choice(['a', 'b-c', 'b', 'ü', 'z z']) for _ in range(rng.randrange(depth + 1)))
        found[os.path.join(below, 'p%d' % k)] = rng.randbytes(size)
    return found


def write_folder(path, found, modes=(0o644,)):
    fresh(path)
    for k, (name, content) in enumerate(found.items()):
        place = os.path.join(path, name)
        os.makedirs(os.path.dirname(place), exist_ok=True)
        with open(place, 'wb') as file:
            file.write(content)
        os.chmod(place, modes[k % len(modes)])


def archive(name='coats'):
    path = os.path.join(ROOM, name)
    shutil.rmtree(path, ignore_errors=True)
    done('new', path)
    return path


def is_expected(path, expected, what):
    found = under(path)
    expect({name: found[name] for name in found if '.' in name and name.split('.')[0] in ('metadata', 'content')} == expected.files(), 'other files: ' + what,
           {name: (len(found[name]), len(content)) for name, content in expected.files().items() if found[name] != content})
    audited = done('audit', path).out
    expect(audited.count(b'accepted') == 2 and b'owed' not in audited, 'not accepted: ' + what, audited)


# ---- adding ----
def against_the_model(rng):
    """Folders of many sizes, and cuts, beside the model; added again the sets go on."""
    place, count = os.path.join(ROOM, 'in'), 0
    for sizes, split, more in (([3, 0, 65536, 200], None, SIGN), ([10] * 600, None, SIGN), ([10] * 255, None, SIGN), ([1] * 256, None, SIGN_EACH),
                               ([5, 70, 64, 65, 0, 640], 64, SIGN), ([300 * 8, 5, 256 * 8, 255 * 8, 8, 8 * 700 + 1], 8, SIGN), ([200000, 7, 65536, 65537], 65536, SIGN_EACH)):
        found = folder_of(rng, sizes)
        write_folder(place, found, (0o644, 0o600, 0o755))
        path, expected = archive(), Expected()
        words = (['--split', str(split)] if split else []) + more
        for _ in range(2):
            ran = done('add', path, '--as', '/in', place, *words)
            for name in sorted(found, key=lambda name: os.fsencode('/in/' + name)):
                mode = os.stat(os.path.join(place, name)).st_mode
                expected.add(os.fsencode('/in/' + name), mode, cut(found[name], split) if split else [found[name]])
            is_expected(path, expected, '%d files, --split %s' % (len(sizes), split))
            roots = done('root', path).out
            expect(ran.out == roots and not ran.err, 'other root hashes', ran)
            count += 1
        again = done('add', path, '--as', '/in', place, '--changed', *words)
        expect(not again.out and b'nothing is new' in again.err, 'added again', again)
        is_expected(path, expected, 'nothing is new')
        out = os.path.join(ROOM, 'out')
        shutil.rmtree(out, ignore_errors=True)
        ran = done('export', path, out)
        expect(not ran.out and not ran.err and under(os.path.join(out, 'in')) == under(place), 'other files come out', sorted(under(out)), ran)
        for name in found:
            expect(os.stat(os.path.join(out, 'in', name)).st_mode == os.stat(os.path.join(place, name)).st_mode, 'another mode', name)
    return count


def cuts(rng):
    """`--cuts` where the office says: before its file or, of one alone, behind it."""
    content = rng.randbytes(100000)
    with open(os.path.join(ROOM, 'long'), 'wb') as file:
        file.write(content)
    with open(os.path.join(ROOM, 'cuts'), 'w') as file:
        file.write('65536, 1 34000\n463\n')
    mode = os.stat(os.path.join(ROOM, 'long')).st_mode
    for words in (['--cuts', 'cuts', 'long'], ['long', '--cuts', 'cuts']):
        path, expected = archive(), Expected()
        done('add', path, *words, *SIGN, cwd=ROOM)
        expected.add(b'/long', mode, [content[:65536], content[65536:65537], content[65537:99537], content[99537:]])
        is_expected(path, expected, 'cuts')
        expect(done('get', path, '/long').out == content, 'another piece')
    path, expected = archive(), Expected()
    done('add', path, '--split', '4000', '--cuts', 'cuts', 'long', '--as', '/again', 'long', *SIGN, cwd=ROOM)
    expected.add(b'/long', mode, [content[:65536], content[65536:65537], content[65537:99537], content[99537:]])
    expected.add(b'/again', mode, cut(content, 4000))
    is_expected(path, expected, 'cuts beside a split')
    same = done('add', path, '--changed', '--split', '65536', '--as', '/again', 'long', *SIGN, cwd=ROOM)
    expect(b'nothing is new' in same.err, 'other cuts of the same bytes are new', same)


def names_of_folders():
    """The names that the files of a folder get."""
    write_folder(os.path.join(ROOM, 'd'), {'x': b'1', 'e/y': b'2', 'e/f/z': b'3'})
    for words, cwd, names in ((['d'], ROOM, ['/d/e/f/z', '/d/e/y', '/d/x']), (['./d/'], ROOM, ['/d/e/f/z', '/d/e/y', '/d/x']),
                              (['--in', '/coat', 'd'], ROOM, ['/coat/d/e/f/z', '/coat/d/e/y', '/coat/d/x']), (['--as', '/k', 'd'], ROOM, ['/k/e/f/z', '/k/e/y', '/k/x']),
                              (['--as', '/', 'd'], ROOM, ['/e/f/z', '/e/y', '/x']), (['.'], os.path.join(ROOM, 'd'), ['/e/f/z', '/e/y', '/x']),
                              (['--in', '/coat/', '.'], os.path.join(ROOM, 'd'), ['/coat/e/f/z', '/coat/e/y', '/coat/x']),
                              (['d/x', '--in', '/q', 'd/e', 'd/x'], ROOM, ['/d/x', '/q/e/f/z', '/q/e/y', '/q/x'])):
        path = archive()
        done('add', path, *words, cwd=cwd)
        listed = [line.split(None, 3)[3].decode() for line in done('list', path).out.splitlines()]
        expect(listed == names, 'other names: %r' % words, listed)


def dry_and_changed(rng):
    """`--dry-run` changes nothing and says what would be added; `--changed` adds what is new, and knows pieces that were released."""
    place, path = os.path.join(ROOM, 'in'), archive()
    write_folder(place, {'p%d' % k: rng.randbytes(300 * k) for k in range(9)})
    before = under(path)
    dry = done('add', path, '--as', '/in', place, '--split', '1000', '--dry-run')
    expect(under(path) == before and dry.out.splitlines()[-1] == b'9 pieces, 16 chunks, 10800 bytes would be added', 'another dry run', dry)
    expect(dry.out.splitlines()[4].split() == [b'2', b'1200', b'/in/p4'], 'another line', dry)
    done('add', path, '--as', '/in', place, '--split', '1000', *SIGN)
    done('release', path, '/in/p8', '/in/p1')
    for name, content in (('p3', b'other bytes'), ('p8', bytes(2400)), ('new', b'')):
        with open(os.path.join(place, name), 'wb') as file:
            file.write(content)
    before = under(path)
    dry = done('add', path, '--as', '/in', place, '--split', '1000', '--changed', '--dry-run')
    expect(under(path) == before and [line.split()[2] for line in dry.out.splitlines()[:-1]] == [b'/in/new', b'/in/p3', b'/in/p8'], 'others are changed', dry)
    done('add', path, '--as', '/in', place, '--split', '1000', '--changed', *SIGN)
    listed = [line.split() for line in done('list', path).out.splitlines()]
    expect([line[3] for line in listed[-3:]] == [b'/in/new', b'/in/p3', b'/in/p8'] and len(listed) == 10, 'others are added', listed)
    dry = done('add', path, '--changed', '--dry-run', '--as', '/in/p3', '-', stdin=b'other bytes')
    expect(dry.out == b'0 pieces, 0 chunks, 0 bytes would be added\n', 'standard input', dry)


def times():
    """`--times` records when a file was changed, to the nanosecond, and it comes out again; without it equal folders give equal archives."""
    place, paths = os.path.join(ROOM, 'in'), [archive('one'), archive('other'), archive('timed')]
    write_folder(place, {'x': b'1', 'e/y': b'2'})
    for path, when, words in zip(paths, (1_700_000_000_123_456_789, 1, 1_600_000_000_000_000_001), ([], [], ['--times'])):
        for name in ('x', 'e/y'):
            os.utime(os.path.join(place, name), ns=(when, when))
        done('add', path, '--as', '/in', place, *SIGN, *words)
    one, other, timed = map(under, paths)
    expect(one == other and timed != one, 'times without --times, or none')
    expected = Expected()
    for name, content in (('e/y', b'2'), ('x', b'1')):
        expected.add(b'/in/' + name.encode(), 0o100644, [content], mtime=when)
    is_expected(paths[2], expected, 'times')
    for path, is_timed in ((paths[2], True), (paths[0], False)):
        out = fresh(os.path.join(ROOM, 'out'))
        done('export', path, out)
        expect((os.stat(os.path.join(out, 'in', 'x')).st_mtime_ns == when) == is_timed, 'another time')
    os.utime(os.path.join(place, 'x'), (-5, -5))
    wrong(2, 'its time, -5 s from 1970, is none that a record has', 'add', paths[2], place, '--times', *SIGN)


def as_the_page_has_it():
    """The record that FORMAT.md shows is the one that `add` writes."""
    with open(os.path.join(os.path.dirname(TARGET), 'docs', 'FORMAT.md')) as file:
        page = file.read().split('A Node of 38 bytes: `/coat/back`', 1)[1].split('\n\n')[1]
    shown = bytes.fromhex(' '.join(''.join(line[:56].split()) for line in page.splitlines()))
    path = archive()
    for name, content in (('x', b'x'), ('back', bytes(200000))):
        with open(os.path.join(ROOM, name), 'wb') as file:
            file.write(content)
    os.chmod(os.path.join(ROOM, 'back'), 0o644)
    os.utime(os.path.join(ROOM, 'back'), ns=(0, 1_700_000_000_123_456_789))
    for k, size in enumerate((50, 50, 1)):
        done('add', path, '--as', '/%d' % k, '-', *SIGN, stdin=bytes(size))
    done('add', path, '--as', '/coat/back', 'back', '--split', '65536', '--times', *SIGN, cwd=ROOM)
    expect(done('get', path, '4', '--metadata').out == shown and len(shown) == 38, 'another record', shown.hex(' '))


# ---- what is refused ----
def wrong(status, says, *words, out=b'', lines=None, **named):
    """The command ends with this status and these words, and changes nothing."""
    before = under(ROOM)
    ran = run(*words, **dict(dict(cwd=ROOM), **named))
    says = [says] if isinstance(says, str) else says
    expect(ran.status == status and all(word.encode() in ran.err for word in says), 'expected status %d and %s: %r' % (status, says, words), ran)
    expect(ran.out == out and (lines is None or ran.err.count(b'\n') == lines), 'other lines: %r' % (words,), ran)
    expect(under(ROOM) == before, 'something changed: %r' % (words,), ran)
    return ran


def strange_folders():
    """Links, pipes, devices, sockets, long names, unreadable files, files that are too long: each is named, and nothing is changed."""
    path, place = archive(), os.path.join(ROOM, 'in')
    long = 250 * 'n'
    for what, make, says in (
            ('link', lambda: os.symlink('x', 'in/l'), 'in/l: a link, and no plain file'), ('link to a folder', lambda: os.symlink('/etc', 'in/l'), 'in/l: a link'),
            ('link that leads nowhere', lambda: os.symlink('nowhere', 'in/l'), 'in/l: a link'), ('pipe', lambda: os.mkfifo('in/l'), 'in/l: a pipe'),
            ('socket', lambda: socket.socket(socket.AF_UNIX).bind('in/l'), 'in/l: a socket'),
            ('device', lambda: os.mknod('in/l', 0o666 | stat.S_IFCHR, os.makedev(1, 5)), 'in/l: a device')):
        if what == 'device' and os.geteuid():
            continue
        write_folder(place, {'x': b'1', 'y': b'2'})
        here = os.getcwd()
        os.chdir(ROOM)
        make()
        os.chdir(here)
        for words in (['add', path, 'in'], ['add', path, 'in', *SIGN], ['add', path, 'in', '--dry-run'], ['needs', path, 'in']):
            wrong(2, says, *words, lines=1)
    write_folder(place, {'x': b'1', 'e/' + long: b'2', 'y': bytes(65537)})
    wrong(1, ['in/e/' + long + ': /in/e/', 'refused with 15', 'in/y: refused with 7', '--split SIZE', '--cuts FILE', '2 files can\'t be added; nothing is changed'],
          'add', path, 'in', *SIGN, lines=3)
    write_folder(place, {'p%d' % k: bytes(65537) for k in range(30)})
    wrong(1, '30 files can\'t be added', 'add', path, 'in', lines=21)
    write_folder(place, {'x': b'1'})
    wrong(2, 'in: /in/x: the name of two files'.split(': ', 1)[1], 'add', path, 'in', 'in/x', *SIGN, lines=1)
    with open(os.path.join(ROOM, 'long'), 'wb') as file:
        file.truncate((240 << 20) + 4)
    wrong(2, 'the most that one change holds', 'add', path, 'long', '--split', '65536', *SIGN, lines=1)
    os.truncate(os.path.join(ROOM, 'long'), 7 << 20)
    wrong(2, 'the most that one change holds', 'add', path, 'long', '--split', '4', *SIGN, lines=1)
    for size in ('0', '6', '65540', 'x', '-4'):
        wrong(2, '--split', 'add', path, 'long', '--split=' + size, lines=1)
    unreadable(path, place)


def unreadable(path, place):
    if os.geteuid() == 0:
        return
    write_folder(place, {'x': b'1', 'y': b'2'}, (0,))
    wrong(2, ['in/x: permission denied', 'in/y: permission denied', '2 files'], 'add', path, 'in', *SIGN)


def own_folder():
    """The archive's own folder is passed over where it lies in the folder that is added, and refused where it is that folder."""
    place = fresh(os.path.join(ROOM, 'in'))
    write_folder(place, {'x': b'1'})
    done('new', os.path.join(place, 'arc'))
    ran = done('add', 'arc', '.', *SIGN, cwd=place)
    expect(b'./arc: the archive itself, which is passed over' in ran.err and ran.err.count(b'\n') == 1, 'not said', ran)
    expect([line.split()[3] for line in done('list', 'arc', cwd=place).out.splitlines()] == [b'/x'], 'other files')
    ran = run('add', 'arc', 'arc', *SIGN, cwd=place)
    expect(ran.status == 2 and b'no file to add' in ran.err, 'added to itself', ran)
    ran = run('export', 'arc', 'arc', cwd=place)
    expect(ran.status == 2 and b'the archive itself' in ran.err, 'exported into itself', ran)
    write_folder(os.path.join(ROOM, 'out'), {})
    done('new', os.path.join(ROOM, 'out', 'coat'))
    before = under(os.path.join(ROOM, 'out'))
    done('add', 'coat', '--as', '/coat/metadata.tree', '../in/x', *SIGN, cwd=os.path.join(ROOM, 'out'))
    before = under(os.path.join(ROOM, 'out'))
    ran = run('export', 'coat', '.', '--overwrite', cwd=os.path.join(ROOM, 'out'))
    expect(ran.status == 1 and b'the folder is the archive itself' in ran.err and under(os.path.join(ROOM, 'out')) == before, 'written into the archive', ran)


def failing_signers(rng):
    """A signer that fails, answers otherwise, or zeros: the commit in hand is dropped, those before stay, and what was signed is printed."""
    place = os.path.join(ROOM, 'in')
    write_folder(place, {'p%04d' % k: rng.randbytes(10) for k in range(700)})
    for answers, how, says in ((0, 'end', 'ended with exit status: 3'), (3, 'end', 'ended with exit status: 3'), (2, 'short', 'after 10 of the 64 bytes'), (2, 'more', 'more than the 64 bytes'),
                               (1, 'zeros', '64 zero bytes, which are no signature'), (4, 'zeros', 'no signature')):
        path = archive()
        before = under(path)
        ran = run('add', path, place, '--signer', '%s %d %s' % (SIGNER, answers, how))
        expect(ran.status == 2 and says.encode() in ran.err and under(path) == before, 'a failing signer: %d %s' % (answers, how), ran)
        signed = ran.out.splitlines()
        expect(len(signed) == answers + (how == 'more') and all(line.startswith(b'signed and not stored: ') for line in signed), 'what was signed is not printed', ran)
        registers = [line.split()[4] for line in signed]
        expect(registers == ([b'metadata', b'content'] * 4)[:len(registers)], 'another order', registers)
    for command, says in (('exit 3', 'ended with exit status: 3'), ('head -c 64 /dev/zero', 'no signature'), ('echo 1', 'it gave 2'), ('/nowhere', 'ended with exit status: 127')):
        path = archive()
        before = under(path)
        ran = run('add', path, place, '--sign-with', command)
        expect(ran.status == 2 and says.encode() in ran.err and under(path) == before and not ran.out, 'a failing command: ' + command, ran)
    path = archive()
    ran = run('add', path, place, '--signer', SIGNER + ' 0 last')
    expect(ran.status == 2 and b'everything is signed and stored; but then it ended with exit status: 4' in ran.err, 'not told', ran)
    expect(done('audit', path).out.count(b'accepted') == 2 and b'owed' not in done('status', path).out, 'not stored')
    started_once(place)


def started_once(place):
    """A signer is started once for all, and not at all where nothing is signed; the other for each root hash, with its register and its hash."""
    path, log = archive(), os.path.join(ROOM, 'log')
    done('add', path, place, '--signer', 'echo started >> %s; exec %s' % (log, SIGNER))
    with open(log) as file:
        expect(file.read() == 'started\n', 'started otherwise')
    os.remove(log)
    done('add', path, place, '--changed', '--signer', 'echo started >> %s; exec %s' % (log, SIGNER))
    done('add', path, place, '--dry-run', '--signer', 'echo started >> %s; exec %s' % (log, SIGNER))
    expect(not os.path.exists(log), 'started for nothing')
    path = archive()
    ran = done('add', path, place, '--sign-with', 'echo $1 $2 >> %s; exec %s' % (log, SIGNER))
    with open(log) as file:
        lines = file.read().splitlines()
    expect([line.split()[0] for line in lines] == ['metadata', 'content'] * 3 and '\n'.join(lines[-2:]) + '\n' == ran.out.decode(), 'other words', lines, ran)
    os.remove(log)


def several_commits(rng):
    """Committed every MiB, never inside a piece; where a later commit fails those before stay, and it is said how far it came; --changed adds the rest."""
    place, path = os.path.join(ROOM, 'in'), archive()
    write_folder(place, {'p%02d' % k: rng.randbytes(300000) for k in range(10)})
    words = ['add', path, '--as', '/in', place, '--split', '65536', '--commit-every', '1']
    ran = run(*words, '--signer', SIGNER + ' 4 end')
    expect(ran.status == 2 and b'6 of 10 files are in the archive, up to /in/p05; the same command with --changed adds the rest' in ran.err, 'not said how far', ran)
    expect(ran.err.count(b'files are in the archive\n') == 2 and not ran.out, 'commits are not told', ran)
    expect(len(done('list', path).out.splitlines()) == 6 and done('audit', path).out.count(b'accepted') == 2, 'others are there')
    done(*words, '--changed', *SIGN)
    out = fresh(os.path.join(ROOM, 'out'))
    done('export', path, out)
    expect(under(os.path.join(out, 'in')) == under(place), 'others come out')
    whole = archive('whole')
    done(*words[:1], whole, *words[2:], *SIGN)
    one = archive('one')
    done('add', one, '--as', '/in', place, '--split', '65536', *SIGN)
    expect(done('compare', whole, one).out.count(b'the same chunks') == 2, 'commits change what is added')
    for every in ('0', '193', 'x'):
        wrong(2, '--commit-every', 'add', path, 'in', '--commit-every', every, *SIGN)
    wrong(2, '--commit-every needs --signer', 'add', path, 'in', '--commit-every', '1')


def journals_of(*words):
    """The lengths of the journals that a command writes, from the log of its steps: each is written from its front on, in one write or several."""
    log, lengths, at = os.path.join(ROOM, 'log'), [], 0
    done(*words, faults={'UNDER': ROOM, 'KIND': 'log', 'LOG': log})
    with open(log, 'rb') as file:
        steps = file.read()
    os.remove(log)
    while at < len(steps):
        path, offset, length, count = struct.unpack_from('=IQQI', steps, at + 1)
        if steps[at:at + 1] == b'w' and steps[at + 25:at + 25 + path].endswith(UNSYNCED.encode()):
            lengths += [0] if offset == 0 else []
            lengths[-1] += length
        at += 25 + path + count
    return lengths


def counted_journals(rng):
    """--commit-every counts all that a commit's journal has: no journal is longer, of large pieces, of small ones and of empty ones, and none is far shorter but
    the last."""
    place = os.path.join(ROOM, 'in')
    for size, count, split in ((300000, 8, '65536'), (300000, 8, '300'), (40, 9000, '65536'), (0, 9000, '65536')):
        write_folder(place, {'%06d' % k: rng.randbytes(size) for k in range(count)})
        lengths = journals_of('add', archive(), '--as', '/in', place, '--split', split, '--commit-every', '1', *SIGN)
        expect(len(lengths) > 1 and max(lengths) <= 1 << 20, 'a longer journal', size, split, lengths)
        expect(min(lengths[:-1]) > 600000, 'a short journal', size, split, lengths)  # runs of zeros, where nobody signed, are counted and not written


# ---- pieces of several chunks ----
def in_parts(rng):
    """A piece of several chunks is held, held in part or not; released and packed by its name wholly."""
    path, content = archive(), rng.randbytes(1000)
    with open(os.path.join(ROOM, 'x'), 'wb') as file:
        file.write(content)
    done('add', path, 'x', '--split', '300', *SIGN, cwd=ROOM)
    done('add', path, '--as', '/y', 'x', *SIGN, cwd=ROOM)
    holding = lambda: [line.split()[2] for line in done('list', path).out.splitlines()]
    expect(done('list', path).out == b'      0    1000 held /x\n      4    1000 held /y\n', 'another list')
    wrong(2, '/x: chunks 0 to 3: -o FILE is needed', 'packet', 'make', path, '/x')
    done('packet', 'make', path, '/x', '-o', 'packet', cwd=ROOM)
    done('release', path, '2')
    expect(holding() == [b'part', b'held'] and done('missing', path, '--names').out == b'/x\n', 'not held in part')
    wrong(1, 'refused with 18', 'get', path, '/x')
    wrong(1, ['/x: held here in part', 'one is not written'], 'export', path, 'out/none', '/x')
    done('packet', 'take', path, 'packet.2', '--number', '2', cwd=ROOM)
    expect(holding() == [b'held', b'held'] and not done('missing', path, '--names').out, 'not back')
    done('release', path, '/x')
    expect(holding() == [b'no', b'held'] and done('missing', path).out == b'0\n1\n2\n3\n', 'not released')
    for chunk in range(4):
        done('packet', 'take', path, 'packet.%d' % chunk, '--number', str(chunk), cwd=ROOM)
    done('get', path, '/x', '-o', 'y', cwd=ROOM)
    with open(os.path.join(ROOM, 'y'), 'rb') as file:
        expect(file.read() == content == done('get', path, '/x').out, 'another piece')
    wrong(2, '--names is of pieces', 'missing', path, '--names', '--metadata')


def archive_of(path, chunks, nodes):
    """An archive with these chunks and records, whatever they say."""
    fresh(path)
    made = [records.header_bytes(bytes(32))]
    for name, stat_of in nodes:
        record = bytearray(4096)
        made.append(bytes(record[:records.write_node(records.Node(name, stat_of), record)[1]]))
    for name, parts in (('metadata', made), ('content', chunks)):
        r = model.register_of(parts)
        for kind in KINDS:
            with open(os.path.join(path, '%s.%s' % (name, kind)), 'wb') as file:
                file.write(getattr(r, kind) if kind != 'signatures' else getattr(r, kind)[:32] + bytes(64 * r.n))


def hostile_records():
    """Records that tell of other chunks than there are: held to n and to the places before anything is read."""
    path, chunks = os.path.join(ROOM, 'hostile'), [b'abc', b'', b'defgh', b'ij']
    right = dict(mode=0o100644, size=8, blocks=3, offset=0, byte_offset=0)
    huge = (1 << 64) - 1
    for change, says in (({}, None), ({'blocks': 2}, 'another start or size'), ({'blocks': 4}, 'another start or size'), ({'size': 9}, 'another start or size'),
                         ({'byte_offset': 1}, 'another start or size'), ({'offset': 1}, 'another start or size'), ({'blocks': 5}, 'has not'), ({'blocks': huge}, 'has not'),
                         ({'blocks': 0}, 'has not'), ({'offset': 4, 'blocks': 1}, 'has not'), ({'offset': huge, 'blocks': huge}, 'has not'), ({'offset': 2, 'blocks': 3}, 'has not'),
                         ({'size': None}, 'another start or size'), ({'byte_offset': None}, 'another start or size'), ({'offset': None}, 'names no chunk'),
                         ({'blocks': None, 'size': 3}, None), ({'size': huge}, 'another start or size'), ({'byte_offset': huge, 'size': 9}, 'another start or size')):
        archive_of(path, chunks, [(b'/a', records.Stat(**dict(right, **change))), (b'/b', records.Stat(mode=0o100644, size=2, blocks=1, offset=3, byte_offset=8))])
        if says is None:
            expect(done('get', path, '/a').out == b'abcdefgh'[:dict(right, **change)['size']], 'another piece', change)
            done('release', path, '/a')
            continue
        for words in (['get', path, '/a'], ['release', path, '/a', '/b'], ['packet', 'make', path, '/a', '-o', 'none']):
            wrong(1, ['/a: its record', says], *words, lines=1)
        out = fresh(os.path.join(ROOM, 'out'))
        ran = run('export', path, out)
        expect(ran.status == 1 and b'/a: ' in ran.err and says.encode() in ran.err and under(out) == {'b': b'ij'}, 'another export', change, ran)
        expect(done('list', path).out.count(b'\n') == 2, 'not listed')


# ---- export ----
def hostile_names():
    """Names that lead out of the folder, or are no paths, are named and not written; `/a` beside `/a/b` too."""
    path, out = os.path.join(ROOM, 'hostile'), os.path.join(ROOM, 'deep', 'out')
    names = [b'/../x', b'/a/../../x', b'/..', b'/.', b'/./x', b'//x', b'/a//x', b'/x/', b'/', b'/nul\0x', b'/file', b'/file/below', b'/good', b'/.../x', b'/-rf', b'/\x1b[2J', b'/a\nb']
    archive_of(path, [b'%d' % k for k in range(len(names))], [(name, records.Stat(mode=0o106777, size=len(b'%d' % k), blocks=1, offset=k, byte_offset=len(b''.join(b'%d' % j for j in range(k)))))
                                                              for k, name in enumerate(names)])
    fresh(os.path.dirname(out))
    before = under(ROOM)
    ran = run('export', path, out)
    expect(ran.status == 1 and ran.err.count(b'no path below a folder') == 10 and b'/file: other pieces have it as their folder' in ran.err, 'not told', ran)
    expect(b'\x1b' not in ran.err and ran.err.splitlines()[-1] == b'sleep-archive: 11 are not written, named above', 'told otherwise', ran)
    written = under(out)
    expect(written == {'file': None, 'file/below': b'11', 'good': b'12', '...': None, '.../x': b'13', '-rf': b'14', '\x1b[2J': b'15', 'a\nb': b'16'}, 'other files', written)
    expect(stat.S_IMODE(os.stat(os.path.join(out, 'good')).st_mode) == 0o777, 'another mode')
    shutil.rmtree(out)
    expect(under(ROOM) == before, 'something is written elsewhere')


def hostile_folders(rng):
    """Links where folders should be are not followed; nothing is overwritten unless told, and then a link itself is replaced."""
    path, out, elsewhere = archive(), os.path.join(ROOM, 'out'), os.path.join(ROOM, 'elsewhere')
    write_folder(os.path.join(ROOM, 'in'), {'d/x': b'1', 'y': b'2', 'z': b'3', 'f': b'4'})
    done('add', path, '--as', '/', 'in', *SIGN, cwd=ROOM)
    for flags in ([], ['--overwrite']):
        fresh(elsewhere)
        fresh(out)
        os.symlink(elsewhere, os.path.join(out, 'd'))
        os.symlink(os.path.join(elsewhere, 'y'), os.path.join(out, 'y'))
        os.mkdir(os.path.join(out, 'f'))
        with open(os.path.join(out, 'z'), 'wb') as file:
            file.write(b'mine')
        ran = run('export', path, out, *flags)
        expect(ran.status == 1 and not under(elsewhere) and b'/d/x: d: a link or a file stands where its folder should be' in ran.err, 'a link is followed', ran)
        told = [word in ran.err for word in (b'/y: there is such a file already', b'/z: there is such', b'/f: ')]
        expect(told == ([False, False, True] if flags else [True, True, True]), 'told otherwise', ran)
        with open(os.path.join(out, 'z'), 'rb') as file:
            expect(file.read() == (b'3' if flags else b'mine'), 'overwritten, or not')
        expect(os.path.islink(os.path.join(out, 'y')) == (not flags) and not [name for name in os.listdir(out) if name.endswith('.tmp')], 'a link is followed, or something is left')
    wrong(2, 'in/y: a file, and no folder', 'export', path, 'in/y')
    wrong(2, 'no such file', 'export', path, 'no/such/folder')
    wrong(2, 'an archive and a folder are needed', 'export', path)
    wrong(2, 'x: a name of an archive begins with a slash', 'export', path, 'out', 'x')
    wrong(1, ['/none: there is no such name, and no folder of it', 'one is not written'], 'export', path, 'out', '/none')


def chosen_names(rng):
    """Names of pieces and of folders, beside what they stand for."""
    path, place, out = archive(), os.path.join(ROOM, 'in'), os.path.join(ROOM, 'out')
    found = folder_of(rng, [rng.randrange(50) for _ in range(60)], 3)
    write_folder(place, found)
    done('add', path, '--as', '/', place, *SIGN)
    names = ['/' + name for name in found]
    for _ in range(25):
        asked = [rng.choice([name, os.path.dirname(name), os.path.dirname(name).rstrip('/') + '/']) for name in rng.choices(names, k=rng.randrange(1, 6))]
        fresh(out)
        done('export', path, out, *asked)
        folders = [name.rstrip('/') + '/' for name in asked if name not in names]
        wanted = {name[1:]: found[name[1:]] for name in names if name in asked or any(name.startswith(folder) for folder in folders)}
        expect({name: content for name, content in under(out).items() if content is not None} == wanted, 'other files: %r' % asked)


def bad_records(rng):
    """Beside a record that can't be read: what finding gives is exported, and the rest is told; one name alone goes as far as finding does."""
    path, place, out = archive(), os.path.join(ROOM, 'in'), os.path.join(ROOM, 'out')
    write_folder(place, {'p%d' % k: b'%d' % k for k in range(9)})
    done('add', path, '--as', '/', place, *SIGN)
    done('add', path, '--as', '/p7', os.path.join(place, 'p1'), *SIGN)
    size = os.path.getsize(os.path.join(path, 'metadata.data'))
    with open(os.path.join(path, 'metadata.data'), 'r+b') as file:
        file.seek(size // 2)
        byte = file.read(1)
        file.seek(size // 2)
        file.write(bytes([byte[0] ^ 1]))
    fresh(out)
    ran = run('export', path, out)
    found = [name for name in ['p%d' % k for k in range(9)] if run('get', path, '/' + name).status == 0]
    expect(ran.status == 1 and b'refused with 10' in ran.err and sorted(under(out)) == found and 1 < len(found) < 8, 'other files', ran, found)
    for k in range(9):
        fresh(out)
        ran, got = run('export', path, out, '/p%d' % k), run('get', path, '/p%d' % k)
        expect((ran.status, ran.refusals()) == (got.status, got.refusals()) and list(under(out).values()) == [got.out] * (got.status == 0), 'export and get differ', ran, got)


def seen_on_a_terminal():
    """Long work is counted on a terminal, and leaves nothing there."""
    path, place = archive(), os.path.join(ROOM, 'in')
    write_folder(place, {'%05d' % k: b'%d' % k for k in range(3000)})
    out = os.path.join(ROOM, 'out')
    for words, says in ((['add', path, place, '--signer', 'sleep 1; ' + SIGNER], b'adding files: '), (['export', path, out], None), (['list', path], None)):
        shutil.rmtree(out, ignore_errors=True)
        master, slave = pty.openpty()
        ran = subprocess.Popen([PROGRAM, *words], stdout=subprocess.DEVNULL, stderr=slave, env=environment())
        os.close(slave)
        shown = b''
        while True:
            try:
                part = os.read(master, 65536)
            except OSError:
                break
            if not part:
                break
            shown += part
        os.close(master)
        expect(ran.wait() == 0 and (says is None or says in shown), 'not counted: %r' % words, shown)
        expect(not shown or shown.endswith(b'\r\x1b[K'), 'something is left on the terminal', shown)


def main(seed):
    rng = random.Random(seed)
    fresh(ROOM)
    os.umask(0o022)
    count = against_the_model(rng)
    cuts(rng)
    names_of_folders()
    dry_and_changed(rng)
    times()
    as_the_page_has_it()
    strange_folders()
    own_folder()
    failing_signers(rng)
    several_commits(rng)
    counted_journals(rng)
    in_parts(rng)
    hostile_records()
    hostile_names()
    hostile_folders(rng)
    chosen_names(rng)
    bad_records(rng)
    seen_on_a_terminal()
    print('folders: %d adds as the model has them, with their sets, cuts and signatures; names, times, what is unchanged; failing signers, several commits; pieces in parts; '
          'hostile records and names; exports of all and of some' % count)


if __name__ == '__main__':
    main(int(sys.argv[1]) if len(sys.argv) > 1 else 1)
