"""Folders that somebody prepared: links, hard links, devices, pipes, huge and sparse files, and journals of any kind. No command follows a name out of the
folder, writes a file that has another name, opens what is no plain file, or changes anything for a journal that does not belong there; none takes much
memory for it, and the words name the file.

usage: python3 tests/tool/hostile.py
"""

import os
import random
import resource
import shutil
import signal
import socket
import stat
import struct
import subprocess
import hashlib

from program import FILES, JOURNAL, KEPT, KEYS, KINDS, PAGE, PAGE_UNSYNCED, PROGRAM, TARGET, UNSYNCED, done, encoded, environment, expect, fresh, lay, parsed, run, under
import journal as journal_model
import packet_file
import record_model as records
import sleep_model as model

ROOM = os.path.join(TARGET, 'tests', 'tool', 'hostile')
ARCHIVE = os.path.join(ROOM, 'coats')
OTHERS = os.path.join(ROOM, 'others')  # files of somebody else
PEAK = os.path.join(ROOM, 'peak')
INPUTS = os.path.join(ROOM, 'inputs')
MOST_MEMORY = 64 * 1024  # KiB beyond what the same archive takes

READING = [['status', ARCHIVE], ['audit', ARCHIVE], ['list', ARCHIVE], ['get', ARCHIVE, '0'], ['get', ARCHIVE, '/sleeve'], ['root', ARCHIVE], ['missing', ARCHIVE],
           ['label', ARCHIVE, '--key', os.path.join(INPUTS, 'key')], ['needs', ARCHIVE, '--lengths', '5'], ['packet', 'make', ARCHIVE, '2'], ['sign', ARCHIVE],
           ['compare', ARCHIVE, ARCHIVE], ['hold', ARCHIVE, 'true'], ['journal', ARCHIVE], ['verify', ARCHIVE, '--with', 'true'], ['sheet', ARCHIVE], ['sheet', ARCHIVE, '--html', '--no-audit'],
           ['signature', ARCHIVE, 'content', '2'], ['diff', ARCHIVE, ARCHIVE], ['diff', ARCHIVE, '--first', '0,0'], ['list', ARCHIVE, '/*', '-0'],
           ['packets', 'make', ARCHIVE, '/sleeve', '/last', '--since', '1,1']]
WRITING = [['add', ARCHIVE, '--as', '/more', os.path.join(INPUTS, 'sleeve')], ['release', ARCHIVE, '0'], ['packet', 'take', ARCHIVE, os.path.join(INPUTS, 'packet'), '--number', '1'],
           ['sign', ARCHIVE, '--content', os.path.join(INPUTS, 'signature'), '--metadata', os.path.join(INPUTS, 'signature')], ['journal', ARCHIVE, '--finish'],
           ['packets', 'take', ARCHIVE, os.path.join(INPUTS, 'packets')]]


class Measured:
    """The dearest command in memory beyond the archive's own, and in processor time."""
    memory, time, count = (0, None), (0.0, None), 0


def about(path):
    """What must stay of somebody's files: bytes, kind, length and time of change."""
    found = {}
    for name in sorted(os.listdir(path)):
        known = os.lstat(os.path.join(path, name))
        found[name] = (stat.S_IFMT(known.st_mode), known.st_size, known.st_mtime_ns, known.st_ino, known.st_blocks)
    return found


def within(*words, usual=0, most=MOST_MEMORY):
    """Runs a command that must end by itself; its memory is held to a bound, and its time is told at the end."""
    if os.path.exists(PEAK):
        os.remove(PEAK)
    before = resource.getrusage(resource.RUSAGE_CHILDREN)
    ran = subprocess.run([PROGRAM, *words], stdin=subprocess.DEVNULL, capture_output=True, env=environment({'PEAK': PEAK}), timeout=300)
    after = resource.getrusage(resource.RUSAGE_CHILDREN)
    expect(ran.returncode in (0, 1, 2), 'ended otherwise: %r' % (words,), ran)
    time = after.ru_utime + after.ru_stime - before.ru_utime - before.ru_stime
    peak = 0
    if os.path.exists(PEAK):  # not there where it became another program
        with open(PEAK) as file:
            peak = int(file.read()) - usual
    expect(peak < most, 'too much memory: %d KiB for %r' % (peak, words))
    Measured.memory, Measured.time = max(Measured.memory, (peak, words[0])), max(Measured.time, (time, words[0]))
    Measured.count += 1
    return ran


def prepared():
    """An archive of three pieces, signed, with keys, one piece released and its packet at hand; and files for commands."""
    rng = random.Random(4)
    fresh(INPUTS)
    for name, size in (('sleeve', 5000), ('collar', 65536), ('signature', 64), ('key', 32)):
        with open(os.path.join(INPUTS, name), 'wb') as file:
            file.write(rng.randbytes(size))
    place = lambda name: os.path.join(INPUTS, name)
    done('new', ARCHIVE, '--metadata-key', place('key'), '--content-key', place('key'))
    done('add', ARCHIVE, '--as', '/sleeve', place('sleeve'), '--as', '/collar', place('collar'), '--as', '/last', place('sleeve'))
    done('sign', ARCHIVE, '--metadata', place('signature'), '--content', place('signature'))
    done('packet', 'make', ARCHIVE, '1', '-o', place('packet'))
    done('packets', 'make', ARCHIVE, '/collar', '-o', place('packets'))
    done('release', ARCHIVE, '1')
    return under(ARCHIVE)


def plainly(words):
    """The status on the archive as it is: nothing is owed, and one that released a piece is not compared."""
    return 1 if words[0] == 'compare' or '--first' in words or (words[0] == 'sign' and len(words) > 2) else 0


def unchanged(folder, others, what, *shown):
    expect(about(ARCHIVE) == folder, 'the folder is changed: ' + what, *shown)
    expect(about(OTHERS) == others, "somebody else's files are changed: " + what, *shown)


def old_journal(changes):
    """A journal as older versions wrote it: for each file its number, its new length and ranges of bytes."""
    body = bytes([len(changes)])
    for number, length, ranges in changes:
        body += struct.pack('>BQI', number, length, len(ranges))
        for offset, content in ranges:
            body += struct.pack('>BQQ', 0, offset, len(content)) + content
    whole = b'sleep-archive 1\n' + struct.pack('>Q', 24 + len(body) + 32) + body
    return whole + hashlib.blake2b(whole, digest_size=32).digest()


def links(state):
    """Each file of the archive is a link to somebody's file, which has just the bytes that the archive's has."""
    for name in FILES + KEYS + [JOURNAL, UNSYNCED, KEPT]:
        lay(ARCHIVE, state)
        fresh(OTHERS)
        place, theirs = os.path.join(ARCHIVE, name), os.path.join(OTHERS, name)
        with open(theirs, 'wb') as file:
            file.write(state.get(name, b''))
        if os.path.exists(place):
            os.remove(place)
        os.symlink(theirs, place)
        folder, others = about(ARCHIVE), about(OTHERS)
        for words in READING + WRITING:
            ran = within(*words)
            if name in (UNSYNCED, KEPT):
                expect(ran.returncode == plainly(words), 'not done beside a link: %r' % words, ran)
                expect(about(OTHERS) == others, "somebody else's files are changed", name, words)
                lay(ARCHIVE, state)
                os.symlink(theirs, place)
            else:
                if name not in KEYS and words[0] not in ('hold', 'journal'):
                    expect(ran.returncode == 2 and name.encode() + b': a link, and no plain file' in ran.stderr, 'a link is followed: %s, %r' % (name, words), ran)
                if name in KEYS and words in WRITING[:3]:
                    expect(ran.returncode == 2 and b': a link, and no plain file' in ran.stderr, 'a link is followed: %s, %r' % (name, words), ran)
                unchanged(folder, others, '%s is a link, %r' % (name, words), ran)


def sent():
    """H1: an archive that somebody sent, whose content.key is a link to a file of the reader and whose journal writes content.key."""
    for journal in (old_journal([(9, 32, [(0, b'x' * 32)])]), None):
        shutil.rmtree(ARCHIVE)
        done('new', ARCHIVE)
        fresh(OTHERS)
        with open(os.path.join(OTHERS, 'mine'), 'wb') as file:
            file.write(b'm' * 100)
        states = {name: (os.path.getsize(os.path.join(ARCHIVE, name)) + 1,) * 2 for name in FILES}
        states.update({'metadata.key': (0, 0), 'content.key': (0, 33)})
        with open(os.path.join(ARCHIVE, JOURNAL), 'wb') as file:
            file.write(journal or encoded(states, [('content.key', 2, 0, 32, b'', b'x' * 32)]))
        os.symlink(os.path.join(OTHERS, 'mine'), os.path.join(ARCHIVE, 'content.key'))
        folder, others = about(ARCHIVE), about(OTHERS)
        for words in READING + WRITING:
            ran = within(*words)
            unchanged(folder, others, 'an archive that was sent, %r' % words, ran)
            expect(words[0] == 'hold' or ran.returncode == 2, 'done: %r' % words, ran)
    shutil.rmtree(ARCHIVE)


def shared(state):
    """A backup shares the archive's files by hard links: they are read and not written, and the words say how to get files of one's own."""
    lay(ARCHIVE, state)
    fresh(OTHERS)
    for name in os.listdir(ARCHIVE):
        os.link(os.path.join(ARCHIVE, name), os.path.join(OTHERS, name))
    backup = under(OTHERS)
    for words in READING[:12]:
        ran = within(*words)
        expect(ran.returncode == plainly(words), 'a shared file is not read: %r' % words, ran)
    for words in WRITING[:3]:
        ran = within(*words)
        expect(ran.returncode == 2 and b'names, as where a backup shares it' in ran.stderr, 'a shared file is written: %r' % words, ran)
        expect(under(OTHERS) == backup and under(ARCHIVE) == state, 'changed', words)
    advice = ran.stderr.decode().split('A file of its own: ')[1].strip()
    for name in FILES:
        subprocess.run(['sh', '-c', advice.replace('content.bitfield', name)], check=True)
    for words in WRITING[:1]:
        done(*words)
    expect(under(OTHERS) == backup and under(ARCHIVE) != state, 'not unshared')
    journal_shared(state)


def journal_shared(state):
    """A change was left unfinished, and then a backup came to share the files: it is read as done, and not finished."""
    lay(ARCHIVE, state)
    run(*WRITING[0], faults={'UNDER': ARCHIVE, 'KIND': 'kill', 'AT': 14})
    expect(JOURNAL in under(ARCHIVE), 'another step')
    fresh(OTHERS)
    for name in os.listdir(ARCHIVE):
        os.link(os.path.join(ARCHIVE, name), os.path.join(OTHERS, name))
    backup, folder = under(OTHERS), about(ARCHIVE)
    expect(b'/more' in done('list', ARCHIVE).out, 'not read as done')
    for words in WRITING[:3] + [['journal', ARCHIVE, '--finish']]:
        ran = within(*words)
        expect(ran.returncode == 2 and b'names, as where a backup shares it' in ran.stderr, 'a shared file is written: %r' % words, ran)
        expect(under(OTHERS) == backup and about(ARCHIVE) == folder, 'changed', words)


def make_strange(kind, place):
    if kind == 'a folder':
        os.mkdir(place)
    elif kind == 'a pipe':
        os.mkfifo(place)
    elif kind == 'a socket':
        with socket.socket(socket.AF_UNIX) as made:
            here = os.getcwd()
            os.chdir(os.path.dirname(place))
            made.bind(os.path.basename(place))
            os.chdir(here)
    else:
        os.mknod(place, 0o666 | (stat.S_IFCHR if kind == 'a device' else stat.S_IFBLK), os.makedev(1, 5) if kind == 'a device' else os.makedev(7, 0))


def strange_files(state):
    """In the place of each file a pipe, a socket, a folder, a device that never ends: told at once, and never opened."""
    kinds = ['a pipe', 'a socket', 'a folder'] + (['a device', 'a block device'] if os.geteuid() == 0 else [])
    fresh(OTHERS)
    for name in FILES + KEYS + [JOURNAL]:
        for kind in kinds:
            lay(ARCHIVE, state)
            place = os.path.join(ARCHIVE, name)
            if os.path.exists(place):
                os.remove(place)
            make_strange(kind, place)
            folder = about(ARCHIVE)
            for words in (READING if kind == 'a pipe' else READING[2:4]) + WRITING[:3]:
                ran = within(*words)
                unchanged(folder, {}, '%s is %s' % (name, kind), ran)
                if name not in KEYS and words[0] not in ('hold', 'journal'):
                    said = ('%s: %s, and no plain file' % (name, kind.replace('block ', ''))).encode()
                    expect(ran.returncode == 2 and said in ran.stderr, '%s is %s: %r' % (name, kind, words), ran)
            if name == JOURNAL:
                expect(b'--without-journal' in within(*READING[2]).stderr, 'no way out')
                expect(within('list', ARCHIVE, '--without-journal').returncode == 0, 'not read past it')
                expect(within('journal', ARCHIVE, '--drop').returncode == 0 and within('list', ARCHIVE).returncode == 0, 'not set aside')
                if kind == 'a folder':
                    os.rmdir(place + '.dropped')
                else:
                    os.remove(place + '.dropped')
                expect(under(ARCHIVE) == state, 'changed')
            elif kind == 'a folder':
                os.rmdir(place)
            else:
                os.remove(place)


def strange_pages(state, usual):
    """In the place of the page a link to somebody's file, a file that a backup shares, a pipe, a socket, a folder, a device, 4 TiB of holes: no command but `status`
    looks at it, and that one tells. `new` and `copy` write over none of them, and through none."""
    kinds = ['a link', 'a shared file', 'holes', 'a pipe', 'a socket', 'a folder'] + (['a device', 'a block device'] if os.geteuid() == 0 else [])
    office = os.path.join(ROOM, 'office')
    lay(office, state)
    for kind in kinds:
        make_page = lambda name=PAGE: strange_page(kind, name)
        lay(ARCHIVE, {name: found for name, found in state.items() if name != PAGE})
        make_page()
        others = about(OTHERS)
        for words in READING + WRITING:
            ran = within(*words, usual=usual)
            expect(ran.returncode == plainly(words), 'not done where the page is %s: %r' % (kind, words), ran)
            expect(about(OTHERS) == others, "somebody else's files are changed: the page is " + kind, words)
            if words[0] == 'status':
                said = {'a shared file': b'is another file', 'holes': b'is another file'}.get(kind, kind.replace('block ', '').encode() + b', and no plain file')
                expect(said in ran.stdout.splitlines()[-1], 'told otherwise', ran)
            if words in WRITING:
                lay(ARCHIVE, {name: found for name, found in state.items() if name != PAGE})
                make_page()
                others = about(OTHERS)
        for words in (['new', ARCHIVE], ['copy', ARCHIVE, '--of', office]):
            lay(ARCHIVE, {})
            make_page()
            folder, others = about(ARCHIVE), about(OTHERS)
            ran = within(*words, usual=usual)
            expect(ran.returncode == 2 and b'--no-page leaves the page' in ran.stderr, 'made where the page is ' + kind, ran)
            unchanged(folder, others, 'the page is ' + kind, ran)
            expect(within(*words, '--no-page').returncode == 0 and about(OTHERS) == others, 'not made without a page', kind)
            lay(ARCHIVE, {})
            make_page(PAGE_UNSYNCED)
            others = {name: known[:3] for name, known in about(OTHERS).items()}
            ran = within(*words, usual=usual)
            expect(ran.returncode == (2 if kind == 'a folder' else 0), 'parts of a page that are ' + kind, ran)
            expect({name: known[:3] for name, known in about(OTHERS).items()} == others, "somebody else's files are changed", kind)
            expect(kind == 'a folder' or PAGE_UNSYNCED not in under(ARCHIVE), 'left over', kind)
    shutil.rmtree(office)


def strange_page(kind, name):
    """A page of this kind, in a folder; somebody's file lies elsewhere."""
    fresh(OTHERS)
    place, theirs = os.path.join(ARCHIVE, name), os.path.join(OTHERS, 'mine')
    with open(theirs, 'wb') as file:
        file.write(b'mine')
    if kind == 'a link':
        os.symlink(theirs, place)
    elif kind == 'a shared file':
        os.link(theirs, place)
    elif kind == 'holes':
        with open(place, 'wb') as file:
            file.truncate(1 << 42)
    else:
        make_strange(kind, place)


def sparse(state, usual):
    """Files far longer than they should be, all holes: told by their lengths, and not read."""
    fresh(OTHERS)
    for name in FILES + KEYS + [JOURNAL, UNSYNCED, KEPT]:
        for length in (3 << 30, 83_886_072, 32 + 3328 * 128, 1 << 36, 1 << 42):
            lay(ARCHIVE, state)
            with open(os.path.join(ARCHIVE, name), 'ab') as file:
                file.truncate(length)
            folder = about(ARCHIVE)
            for words in READING[1:5] + WRITING[:2]:
                ran = within(*words, usual=usual)
                if name in FILES and words[0] == 'audit':
                    expect(ran.returncode, 'done with a strange file: %s of %d, %r' % (name, length, words), ran)
                if words in READING or ran.returncode:
                    expect(about(ARCHIVE) == folder, 'changed: %s of %d, %r' % (name, length, words), ran)
                if name == JOURNAL:
                    expect(ran.returncode == 2 and b'nothing is touched' in ran.stderr, 'a sparse journal: %r' % words, ran)
    shutil.rmtree(ARCHIVE)


def states_of(state):
    return {name: (0 if state.get(name) is None else len(state[name]) + 1,) * 2 for name in FILES + KEYS}


def wrong_journals(state):
    """Journals, most with a right hash, that are none: ranges outside, over each other, too far, without end; lengths that no register has."""
    states, size = states_of(state), len(state['content.data'])
    grown = lambda name, new: dict(states, **{name: (states[name][0], new)})
    zeros = lambda name, offset, length: (name, 3, offset, length, b'', b'')
    huge = 1 << 63
    return [
        ('zeros without end', encoded(grown('content.data', huge), [zeros('content.data', size, huge - 1 - size)])),
        ('zeros without end in the file', encoded(states, [zeros('content.data', 0, huge - 1)])),
        ('a range at 2^40', encoded(states, [('content.data', 2, 1 << 40, 1, b'', b'x')])),
        ('a range that wraps', encoded(states, [('content.data', 2, (1 << 64) - 1, 2, b'', b'xx')])),
        ('a length that wraps', encoded(states, [zeros('content.data', 1, (1 << 64) - 1)])),
        ('data beyond every register', encoded(grown('content.data', (1 << 36) + 2), [zeros('content.data', size, (1 << 36) + 1 - size)])),
        ('a tree of another length', encoded(grown('content.tree', states['content.tree'][0] + 40), [zeros('content.tree', states['content.tree'][0] - 1, 40)])),
        ('a shorter file', encoded(dict(states, **{'content.data': (size + 1, size)}), [])),
        ('a file that goes', encoded(dict(states, **{'content.data': (size + 1, 0)}), [])),
        ('a gap', encoded(grown('content.data', size + 11), [zeros('content.data', size + 5, 5)])),
        ('nothing of what grows', encoded(grown('content.data', size + 11), [])),
        ('over each other', encoded(states, [zeros('content.data', 0, 10), zeros('content.data', 9, 5)])),
        ('falling', encoded(states, [zeros('content.data', 10, 1), zeros('content.data', 0, 5)])),
        ('falling files', encoded(states, [zeros('content.data', 0, 1), zeros('content.tree', 40, 5)])),
        ('old bytes behind the end', encoded(grown('content.data', size + 11), [('content.data', 1, size - 1, 2, b'xx', b'yy'), zeros('content.data', size + 1, 9)])),
        ('an empty range', encoded(states, [zeros('content.data', 5, 0)])),
        ('no such kind', encoded(states, [('content.data', 5, 0, 1, b'', b'x')])),
        ('kind 0', encoded(states, [('content.data', 0, 0, 1, b'', b'x')])),
        ('no such file', encoded(states, [(10, 2, 0, 1, b'', b'x')])),
        ('bytes cut off', encoded(states, [('content.data', 2, 0, 100, b'', b'x')])),
        ('another length', encoded(states, [], length=1 << 40)),
        ('another hash', encoded(states, [], sum_of=b'')),
        ('a key of another length', encoded(grown('content.key', 34), [('content.key', 2, 32, 1, b'', b'x')])),
        ('too short', b'sleep-archive 2\n'),
        ('empty', b''),
        ('an older one', old_journal([(9, 32, [(0, b'x' * 32)])])),
        ('of another program', b'x' * 5000),
    ]


def journals(state, usual):
    """No wrong journal is taken; each is named, and reading can pass over it."""
    wrong = wrong_journals(state)
    fresh(OTHERS)
    for what, journal in wrong:
        lay(ARCHIVE, dict(state, **{JOURNAL: journal}))
        folder = about(ARCHIVE)
        for words in READING + WRITING:
            ran = within(*words, usual=usual)
            unchanged(folder, {}, '%s: %r' % (what, words), ran)
            if words[0] != 'hold':
                expect(ran.returncode == 2 and JOURNAL.encode() in ran.stderr and b'nothing is touched' in ran.stderr, '%s: %r' % (what, words), ran)
        expect(within('list', ARCHIVE, '--without-journal').returncode == 0, 'not read past it')
    return len(wrong)


def dear_journals(state, usual):
    """Right journals that belong to the archive as it is, and would cost: many ranges, ranges on many pages, 64 GiB of zeros, hundreds of MiB. They are done within
    bounds, or told; reading changes nothing, and a large one is read as done where the reader says so."""
    states, size = states_of(state), len(state['content.data'])
    large = (1 << 36)
    fresh(OTHERS)
    every, mib = range(0, size, 2), lambda count: [('content.data', 2, 0, count << 20, b'', bytes(count << 20))]
    read, told, asked = 0, 2, 'large'
    dear = [
        ('a witness in every page', [('content.data', 4, at, 1, b'\0', b'') for at in range(1 << 20, large, 1 << 16)], large, told),
        ('a byte in every page', [('content.data', 2, at, 1, b'', b'x') for at in range(1 << 20, large, 1 << 16)], large, told),
        ('zeros in every other page', [('content.data', 3, at, 4096, b'', b'') for at in range(1 << 20, 1 << 30, 8192)], large, told),
        ('more ranges than any', [('content.data', 2, at, 1, b'', b'x') for at in range(0, 2 * (1 << 18) + 2, 2)], large, told),
        ('64 GiB of zeros', [('content.data', 3, 0, large, b'', b'')], large, read),
        ('16 MiB of bytes', mib(16), large, read),
        ('60 MiB of bytes', mib(60), large, read),
        ('60 MiB of bytes and 24 of old pages', [('content.data', 1, 1 << 20, 24 << 20, bytes(24 << 20), bytes(24 << 20)), ('content.data', 2, 25 << 20, 36 << 20, b'', bytes(36 << 20))], large, read),
        ('62 MiB of bytes', mib(62), large, asked),
        ('200 MiB of bytes', mib(200), large, asked),
        ('256 MiB of bytes in as many ranges as may be', [('content.data', 2, 1000 * at, 1000, b'', bytes(1000)) for at in range(1 << 18)], large, asked),
        ('every other byte', [('content.data', 2, at, 1, b'', b'x') for at in every], size, read),
    ]
    for what, ranges, length, status in dear:
        lay(ARCHIVE, dict(state, **{JOURNAL: encoded(dict(states, **{'content.data': (length + 1,) * 2}), ranges)}))
        os.truncate(os.path.join(ARCHIVE, 'content.data'), length)
        with open(os.path.join(ARCHIVE, JOURNAL), 'rb') as written:
            os.fsync(written.fileno())  # a file's count of blocks is that of its writing out, sooner or later
        folder = about(ARCHIVE)
        for words in READING if status != asked or '200' in what else READING[:5]:
            ran = within(*words, usual=usual)
            expect(about(ARCHIVE) == folder, 'changed: %s, %r' % (what, words), ran)
            if words[0] not in ('hold', 'journal'):
                expect((ran.returncode == 2) == (status != read), '%s: %r' % (what, words), ran)
                expect(status != asked or (b' MiB of memory to be read as done' in ran.stderr and b'--large-journal' in ran.stderr), '%s is told otherwise: %r' % (what, words), ran)
        if status == asked:
            as_done(what, folder)
        ran = within('journal', ARCHIVE, '--finish', usual=usual)
        expect((ran.returncode == 0) == (JOURNAL not in about(ARCHIVE)), 'neither finished nor told: ' + what, ran)
        expect(ran.returncode == 0 or status == told, 'not finished: ' + what, ran)
        expect(within('list', ARCHIVE, '--without-journal', usual=usual).returncode in (0, 1), 'not read past it')
    lay(ARCHIVE, state)


def as_done(what, folder):
    """A large journal is read as done where the reader says so, and nothing is touched."""
    for words in (['list', ARCHIVE], ['get', ARCHIVE, '/sleeve'], ['audit', ARCHIVE], ['packet', 'make', ARCHIVE, '2']):
        ran = subprocess.run([PROGRAM, *words, '--large-journal'], capture_output=True, env=environment())
        expect(ran.returncode in (0, 1) and about(ARCHIVE) == folder, 'not read as done: %s, %r' % (what, words), ran)
    ran = within('journal', ARCHIVE)
    expect(ran.returncode == 0 and b'reading commands show it as done with --large-journal\n' in ran.stdout, 'told otherwise', ran)


def changed_meanwhile(state):
    """A long journal is read in parts, again and again. A program that knows no lock changes it after it was judged, while it is finished or read: that is told,
    and no byte of it that was not judged comes into a file."""
    states, size, rng = states_of(state), len(state['content.data']), random.Random(8)
    new = rng.randbytes(3 << 20)
    right = encoded(dict(states, **{'content.data': (size + 1, size + len(new) + 1)}), [('content.data', 2, size, len(new), b'', new)])
    met = 0
    for at in range(2, 16):
        lay(ARCHIVE, dict(state, **{JOURNAL: right}))
        finishing = subprocess.Popen([PROGRAM, 'journal', ARCHIVE, '--finish'], stderr=subprocess.PIPE, env=environment({'UNDER': ARCHIVE, 'KIND': 'stop', 'AT': at}))
        os.waitid(os.P_PID, finishing.pid, os.WSTOPPED | os.WEXITED | os.WNOWAIT)
        with open(os.path.join(ARCHIVE, JOURNAL), 'r+b') as file:
            file.seek(len(right) - 50000)
            file.write(b'other bytes')
        finishing.send_signal(signal.SIGCONT)
        said = finishing.communicate()[1]
        with open(os.path.join(ARCHIVE, 'content.data'), 'rb') as file:
            now = file.read()[size:]
        expect(all(byte in (0, other) for byte, other in zip(now, new)), 'bytes that were not judged', at)
        if finishing.returncode == 2:
            met += 1
            expect(b'sleep-archive.journal was changed by another program while it was read' in said, 'told otherwise', said)
            expect(b'a damaged journal' in within('list', ARCHIVE).stderr, 'taken afterwards')
        else:
            expect(finishing.returncode == 0 and now == new, 'another end', at, said)
    expect(met > 5, 'never met', met)
    lay(ARCHIVE, state)


def left_behind(state):
    """Journals that commands left at each of their steps, each with the files as they were then."""
    found = []
    for words in WRITING[:3]:
        for at in range(1, 40):
            lay(ARCHIVE, state)
            run(*words, faults={'UNDER': ARCHIVE, 'KIND': 'kill', 'AT': at})
            now = under(ARCHIVE)
            if JOURNAL in now:
                found.append(now)
    expect(len(found) > 10, 'no journals', len(found))
    return found


def mutated(rng, journal):
    """A journal with bytes, numbers or ranges changed, most of them with a right length and hash."""
    states, ranges = parsed(journal)
    kind, names = rng.randrange(7), FILES + KEYS
    if kind == 0:
        at = rng.randrange(len(journal))
        return journal[:at] + bytes([journal[at] ^ 1 << rng.randrange(8)]) + journal[at + 1:]
    if kind == 1 and ranges:
        k = rng.randrange(len(ranges))
        name, sort, offset, length, old, new = ranges[k]
        change = rng.choice([-40, -2, -1, 1, 2, 40, 4096, 1 << 40])
        ranges[k] = (name, sort, max(0, offset + change), length, old, new)
    elif kind == 2 and ranges:
        k = rng.randrange(len(ranges))
        name, sort, offset, length, old, new = ranges[k]
        ranges[k] = (rng.choice(names), rng.choice([sort, sort, 1, 2, 3, 4]), offset, max(0, length + rng.choice([-1, 0, 1])), old, new)
    elif kind == 3:
        name = rng.choice(names)
        states[name] = tuple(max(0, state + rng.choice([0, 0, -80, -40, -1, 1, 40, 64, 80, 3328])) for state in states[name])
    elif kind == 4:
        rng.shuffle(ranges)
    elif kind == 5 and ranges:
        del ranges[rng.randrange(len(ranges))]
    elif ranges:
        k = rng.randrange(len(ranges))
        name, sort, offset, length, old, new = ranges[k]
        other = lambda held: held[:-1] + bytes([held[-1] ^ 1]) if held and rng.random() < 0.5 else held
        ranges[k] = (name, sort, offset, length, other(old), other(new))
    return encoded(states, ranges)


def after(journal, files):
    """The files with a journal's change made, as FORMAT.md says it."""
    files = dict(files)
    states, ranges = parsed(journal)
    for name in FILES + KEYS:
        if states[name][1]:
            files[name] = files.get(name, b'').ljust(states[name][1] - 1, b'\0')
    for name, kind, offset, length, _, new in ranges:
        if kind != 4:
            files[name] = files[name][:offset] + (new or bytes(length)) + files[name][offset + length:]
    return files


def beside_the_model(state, rng, count):
    """Random and mutated journals over files that a stop left: taken where the model takes them, and then the files are those that the model makes."""
    found, taken = left_behind(state), 0
    for _ in range(count):
        left = dict(rng.choice(found))
        journal = left.pop(JOURNAL) if rng.random() < 0.95 else rng.randbytes(rng.randrange(600))
        left.pop(JOURNAL, None)
        if rng.random() < 0.9:
            journal = mutated(rng, journal) if journal[:16] == b'sleep-archive 2\n' else journal
        lay(ARCHIVE, dict(left, **{JOURNAL: journal}))
        at, right = journal_model.FRONT, journal_model.check(journal)[0] == journal_model.DONE
        for number, name in enumerate(FILES + KEYS):
            if right:
                answer, at = journal_model.between(journal, number, at, left.get(name))
                right = answer == journal_model.DONE
        folder = about(ARCHIVE)
        read = within('status', ARCHIVE)
        expect(about(ARCHIVE) == folder, 'reading changed something', read)
        ran = within('journal', ARCHIVE, '--finish')
        if not right:
            expect(read.returncode == ran.returncode == 2 and b'nothing is touched' in ran.stderr and about(ARCHIVE) == folder, 'a journal is taken that is none', read, ran)
            continue
        expect(ran.returncode == 0 and under(ARCHIVE) == after(journal, left), 'another state is made', ran)
        taken += 1
    return taken


def crafted(folder, nodes, chunks):
    """An archive whose records say anything, with right hashes."""
    pieces = [records.header_bytes(bytes(32))]
    for node in nodes:
        buffer = bytearray(4096)
        answer = records.write_node(node, buffer)
        pieces.append(bytes(buffer[:answer[1]]))
    found = {}
    for name, r in (('metadata', model.register_of(pieces)), ('content', model.register_of(chunks))):
        found.update({'%s.%s' % (name, kind): bytes(getattr(r, kind)) for kind in KINDS})
    lay(folder, found)


def strange_records():
    """Records that tell of times, sizes and chunks that no piece has, or of all chunks again and again: listed as they are, and they cost no more than a moment."""
    other = os.path.join(ROOM, 'other')
    far, stats = (1 << 64) - 1, []
    for offset, blocks, size in ((far, far, far), (0, 0, 0), (None, None, None), (3, far - 2, 1), (0, 5, far), (4, 1, 0), (5, 1, 0)):
        stats.append(records.Stat(mode=(1 << 32) - 1, size=size, blocks=blocks, offset=offset, byte_offset=far, mtime=far if size else 0))
    nodes = [records.Node(b'/%d' % k, stat) for k, stat in enumerate(stats)] + [records.Node(b'/..//', stats[0]), records.Node(b'/none')]
    for folder in (ARCHIVE, other):
        crafted(folder, nodes, [b''] * 5)
    for form in ([], ['--long'], ['--json'], ['-0'], ['/**', '--all']):
        ran = within('list', ARCHIVE, *form)
        expect(ran.returncode == 0 and ran.stdout.count(b'/') >= len(nodes), 'not listed', ran)
    expect(b' 2554-07-21T23:34:33Z /0\n' in within('list', ARCHIVE, '--long').stdout, 'another time')
    ran = within('diff', ARCHIVE, other)
    expect(ran.returncode == 1 and sorted(ran.stdout.split()[1::2]) == [b'/..//', b'/0', b'/1', b'/2', b'/3', b'/6', b'/none'] and set(ran.stdout.split()[::2]) == {b'unknown'}, 'other differences', ran)
    for count, status in ((2000, 0), (2100, 1)):
        for folder in (ARCHIVE, other):
            crafted(folder, [records.Node(b'/%d' % k, records.Stat(mode=0, blocks=2048, offset=0)) for k in range(count)], [b''] * 2048)
        ran = within('diff', ARCHIVE, other)
        expect(ran.returncode == status and (not status or b'far more chunks than there are' in ran.stderr), '%d names of the same chunks' % count, ran)
    shutil.rmtree(other)


def packet_files(state, usual):
    """Files of packets with counts and lengths that lie, cut short, of another archive, of any length: told in words, at no cost, and nothing changed."""
    lay(ARCHIVE, state)
    others, folder, file = about(OTHERS), about(ARCHIVE), os.path.join(INPUTS, 'prepared')
    with open(os.path.join(INPUTS, 'packets'), 'rb') as right:
        right = right.read()
    registers, packets = packet_file.read(right)
    number, at = packet_file.number, 256 + sum(12 + len(one) for _, one in packets[0])  # the one packet of the content begins there
    changed = lambda place, content: right[:place] + content + right[place + len(content):]
    foreign = [(1, packet_file.number(4, 3) + b'abc' + packets[1][0][1][4 + 65536:])]
    for said, content in (
            ('no file of packets', b''), ('no file of packets', b'sleep-packets 1'), ('no file of packets', changed(14, b'2')), ('ends before its first packet', right[:255]),
            ('a register has at most 1048576', changed(136, number(8, (1 << 20) + 1))), ('a register has at most 1048576', changed(16, number(8, (1 << 64) - 1))),
            ('which have at most', changed(144, number(8, 3 * 65536 + 1))), ('which have at most', changed(24, number(8, (1 << 64) - 1))),
            ('it tells of 4 packets of 3 chunks', changed(136 + 112, number(8, 4))), ('packets of 4 chunks of metadata', changed(16 + 112, number(8, (1 << 64) - 1))),
            ('it ends in packet 2 of the 2 of content', changed(136 + 112, number(8, 2))), ('bytes behind its last packet', changed(136 + 112, number(8, 0))),
            ('bytes behind its last packet', right + b'x'), ('it ends in packet 1 of the 1 of content', right[:-1]), ('it ends in packet 1 of the 1 of content', right[:at + 5]),
            ('is said to be of chunk 3, and there are 3', changed(at, number(8, 3))), ('and there are 3', changed(at, number(8, (1 << 64) - 1))),
            ('which no packet has', changed(at + 8, number(4, (1 << 32) - 1))), ('which no packet has', changed(at + 8, number(4, 5))),
            ('it ends in packet 1', changed(at + 8, number(4, 67062))), ("the numbers of chunks don't rise", changed(256 + 12 + len(packets[0][0][1]), number(8, 0))),
            ("the numbers of chunks don't rise", packet_file.made([registers[0], packet_file.About(3, registers[1].size, registers[1].root)], [packets[0], 2 * packets[1]])),
            ('refused with 13', packet_file.made([registers[0], packet_file.About(3, registers[1].size, registers[1].root)], [packets[0], foreign])),
            ('refused with 12', changed(at, number(8, 2))), ('the file is of 9 chunks, and here are 3', changed(136, number(8, 9))),
            ("it is another archive's", changed(144, number(8, registers[1].size + 1)))):
        with open(file, 'wb') as written:
            written.write(content)
        ran = within('packets', 'take', ARCHIVE, file, usual=usual)
        expect(ran.returncode == 1 and said.encode() in ran.stderr and b'Traceback' not in ran.stderr, 'not told: ' + said, ran)
        unchanged(folder, others, said)
        within('packets', 'show', file, usual=usual)
        expect(within('grow', ARCHIVE, file, '--root', 64 * '0' + ',' + 64 * '0', usual=usual).returncode in (1, 2), 'an archive that is no copy grows')
        unchanged(folder, others, said)
    with open(file, 'wb') as written:
        written.write(right)
        written.truncate(1 << 40)
    for path, said in ((file, b'bytes behind its last packet'), ('/dev/zero', b'no file of packets'), ('/dev/null', b'no file of packets')):
        ran = within('packets', 'take', ARCHIVE, path, usual=usual)
        expect(ran.returncode == 1 and said in ran.stderr, 'not told: ' + path, ran)
        unchanged(folder, others, path)
    many = packet_file.About(1 << 20, 1 << 36, bytes(32), count=1 << 20)
    with open(file, 'wb') as written:
        written.write(packet_file.made([many, many], [[], []]))
        written.truncate(1 << 40)
    expect(b'which no packet has' in within('packets', 'show', file, usual=usual).stderr, 'not told: many packets')
    os.remove(file)


def modes(state):
    """The journal of an archive that others may not read can't be read by them either, while it is written and while it stands."""
    lay(ARCHIVE, state)
    for name in os.listdir(ARCHIVE):
        os.chmod(os.path.join(ARCHIVE, name), 0o600)
    met = set()
    for at in range(1, 20):
        lay(ARCHIVE, state)
        for name in os.listdir(ARCHIVE):
            os.chmod(os.path.join(ARCHIVE, name), 0o600)
        run(*WRITING[0], faults={'UNDER': ARCHIVE, 'KIND': 'kill', 'AT': at})
        for name in set(os.listdir(ARCHIVE)) & {JOURNAL, UNSYNCED, KEPT}:
            met.add(name)
            expect(os.stat(os.path.join(ARCHIVE, name)).st_mode & 0o077 == 0, 'others can read ' + name, at)
    expect({JOURNAL, UNSYNCED} <= met, 'no journal was met', met)


def main():
    os.umask(0o022)
    fresh(ROOM)
    state = prepared()
    within('audit', ARCHIVE)
    usual = Measured.memory[0]
    sent()
    links(state)
    shared(state)
    strange_files(state)
    strange_pages(state, usual)
    sparse(state, usual)
    lay(ARCHIVE, state)
    wrong = journals(state, usual)
    dear_journals(state, usual)
    changed_meanwhile(state)
    taken = beside_the_model(state, random.Random(6), 500)
    packet_files(state, usual)
    modes(state)
    strange_records()
    print('hostile: %d commands on folders with links, shared files, pipes, sockets, devices, sparse files, and %d wrong journals: nothing outside is touched'
          % (Measured.count, wrong))
    print('hostile: 500 random and mutated journals as the model says, %d of them taken' % taken)
    print('hostile: at most %.1f MiB beyond the archive\'s own (%s), and %.2f s of the processor (%s)' % (Measured.memory[0] / 1024, Measured.memory[1], *Measured.time))


if __name__ == '__main__':
    main()
