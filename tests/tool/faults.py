"""Nothing lost: the program is killed at every write and every sync of each command that changes an archive, and the writes since the last sync are
dropped, and the disk is full from there on. A reading command then shows the archive before or after, both registers together, and changes nothing; a
writing one leaves the files as before or after.

usage: python3 tests/tool/faults.py [RANDOM [SEED]]

Every step of every command is met once by each fault; RANDOM times (100 unless told otherwise) one command, one step and one fault are drawn, and often
the run that recovers is killed too, again and again. A step is what changes or syncs something: making a file or a folder, a write, a new length,
reserved room, a hole, a sync, another name, a removal (tests/faults.c counts them).

Dropped writes are played from a log of the steps: of each file what it had at its last sync is sure, and of each folder its entries then; what came
later is dropped whole, or in a random choice that keeps some of it: of a write some blocks, or its length alone.
"""

import copy
import os
import random
import shutil
import struct
import subprocess
import sys

from program import FILES, JOURNAL, KEPT, KEYS, PAGE, PAGE_UNSYNCED, TARGET, UNSYNCED, done, expect, fresh, lay, page, parsed, run, under
import sleep_model as model

ROOM = os.path.join(TARGET, 'tests', 'tool', 'faults')
FOLDER = os.path.join(ROOM, 'archives')  # all steps under it count
ARCHIVE = os.path.join(FOLDER, 'coats')
INPUTS = os.path.join(ROOM, 'inputs')
OFFICE = os.path.join(ROOM, 'office', 'coats')
LOG = os.path.join(ROOM, 'log')
OUT = os.path.join(FOLDER, 'out')
SIGNER = os.path.join(TARGET, 'tests', 'signer')


class Disk:
    """Files and folders as a disk may have them after power was lost."""

    def __init__(self, found):
        self.entries = {'': None}  # sure: path to file number, None for a folder
        self.current, self.content, self.later = dict(self.entries), [], {}
        self.entry_steps = []  # not yet sure: (folder, [(path, file number or None or 'gone')])
        for path in sorted(found):
            number = None if found[path] is None else self.file(found[path])
            self.entries[path] = self.current[path] = number

    def file(self, content):
        self.content.append(content)
        self.later[len(self.content) - 1] = []
        return len(self.content) - 1

    def enter(self, *entries):
        for path, what in entries:
            put(self.current, path, what)
        self.entry_steps.append((os.path.dirname(path), entries))

    def step(self, letter, path, offset, length, data):
        if letter == 'c':
            self.enter((path, self.file(b'')))
        elif letter == 'm':
            self.enter((path, None))
        elif letter in 'ud':
            self.enter((path, 'gone'))
        elif letter == 'n':
            self.enter((path, 'gone'), (relative(data.decode()), self.current[path]))
        elif letter in 'wlp':
            self.later[self.current[path]].append((letter, offset, length, data))
        elif letter == 's':
            self.sync(path)
        elif letter == 'a':
            for path in list(self.current):
                self.sync(path)

    def sync(self, path):
        number = self.current[path]
        if number is not None:
            self.content[number] = changed(self.content[number], self.later[number])
            self.later[number] = []
            return
        for folder, entries in self.entry_steps:
            if folder == path:
                for entry, what in entries:
                    put(self.entries, entry, what)
        self.entry_steps = [step for step in self.entry_steps if step[0] != path]

    def lost(self, kept):
        """What is there after a loss of power; `kept` gives what is there of a step that isn't sure, as a list of steps."""
        entries = dict(self.entries)
        for _, changed_entries in self.entry_steps:
            if kept(None):
                for path, what in changed_entries:
                    put(entries, path, what)
        found = {}
        for path, number in sorted(entries.items()):
            if path == '' or os.path.dirname(path) not in entries:
                continue
            if number is None:
                found[path] = None
            else:
                steps = [part for step in self.later[number] for part in kept(step)]
                found[path] = changed(self.content[number], steps)
        return found


def relative(path):
    """A path under FOLDER, from there."""
    return os.path.relpath(path, FOLDER) if path != FOLDER else ''


def put(entries, path, what):
    if what == 'gone':
        entries.pop(path, None)
    else:
        entries[path] = what


def changed(content, steps):
    """A file's bytes after writes, new lengths, at least such a length, and holes."""
    content = bytearray(content)
    for letter, offset, length, data in steps:
        if letter == 'l':
            content = content[:length].ljust(length, b'\0')
        elif letter == 'e':
            content = content.ljust(length, b'\0')
        elif letter == 'w':
            content = content.ljust(offset, b'\0')
            content[offset:offset + len(data)] = data
        else:
            end = min(len(content), offset + length)
            content[offset:end] = bytes(max(0, end - offset))
    return bytes(content)


def nothing(step):
    return []


def some_of(rng):
    """Of each step all, nothing or, of a write, some of its blocks; then its length may be there without them."""
    def kept(step):
        if step is None or step[0] != 'w':
            return [step] * rng.randrange(2)
        _, offset, _, data = step
        block, share = rng.choice([16, 64, 512, 4096]), rng.choice([0, 0.5, 0.9, 1])
        blocks = [('w', offset + at, 0, data[at:at + block]) for at in range(0, len(data), block) if rng.random() < share]
        if rng.random() < 0.5:
            blocks.insert(0, ('e', 0, offset + len(data), b''))
        return blocks
    return kept


def logged():
    """The steps of the log: letter, path under FOLDER, offset, length, data."""
    with open(LOG, 'rb') as file:
        log = file.read()
    steps, at = [], 0
    while at < len(log):
        long, offset, length, count = struct.unpack_from('=IQQI', log, at + 1)
        path = log[at + 25:at + 25 + long].decode()
        steps.append((chr(log[at]), relative(path), offset, length, log[at + 25 + long:at + 25 + long + count]))
        at += 25 + long + count
    return steps


class Command:
    """A command on a state of the archives' folder, with its steps and what it leaves."""

    def __init__(self, name, words, before):
        self.name, self.words, self.before = name, words, before
        lay(FOLDER, before)
        if os.path.exists(LOG):
            os.remove(LOG)
        done(*words, faults={'UNDER': FOLDER, 'KIND': 'log', 'LOG': LOG})
        self.steps, self.after = logged(), under(FOLDER)
        expect(self.after != before, '%s changes nothing' % name)
        self.audits = {'after': done('audit', ARCHIVE).out}
        lay(FOLDER, before)
        self.audits['before'] = run('audit', ARCHIVE).out
        self.check_ranges()

    def journal(self):
        """The bytes of the command's journal."""
        return next(data for letter, path, _, _, data in self.steps if letter == 'w' and path.endswith(UNSYNCED))

    def check_ranges(self):
        """Before the journal and its entry in the folder are synced no byte and no length of a file changes, and afterwards only what the journal names."""
        journal = self.journal()
        written = [k for k, (letter, path, *_) in enumerate(self.steps) if letter in 'wlp' and not path.endswith((UNSYNCED, PAGE_UNSYNCED))]
        begun = [(letter, path) for letter, path, *_ in self.steps[:written[0] if written else None]
                 if letter != 'r' and path in ('coats', 'coats/' + UNSYNCED, 'coats/' + JOURNAL)]
        begun = begun[begun.index(('c', 'coats/' + UNSYNCED)):][:5]
        expected = [(letter, 'coats/' + UNSYNCED) for letter in 'cwsn'] + [('s', 'coats')]
        expect(begun == expected, '%s: changed before the journal is synced' % self.name, begun)
        self.check_page()
        states, ranges = parsed(journal)
        for file in FILES + KEYS:
            path = 'coats/' + file
            found = [state.get(path) for state in (self.before, self.after)]
            expect(states[file] == tuple(0 if now is None else len(now) + 1 for now in found), '%s: another length than the journal has' % self.name, file)
            old, new = (now or b'' for now in found)
            differ = [k for k in range(len(new)) if k >= len(old) or old[k] != new[k]]
            inside = set()
            for _, kind, offset, length, before, after in (one for one in ranges if one[0] == file):
                expect(kind not in (1, 4) or before == old[offset:offset + length], '%s: other old bytes: %s' % (self.name, file))
                expect(kind not in (1, 2) or after == new[offset:offset + length], '%s: other new bytes: %s' % (self.name, file))
                expect(kind != 4 or before == new[offset:offset + length], '%s: a witness changes: %s' % (self.name, file))
                inside.update(range(offset, offset + length) if kind != 4 else [])
            expect(inside.issuperset(differ), '%s: changed outside the journal: %s' % (self.name, file))
        self.check_witnesses(ranges)

    def check_page(self):
        """A page is whole and synced, with its entry in the folder, before the journal is begun: so no archive comes to be without it."""
        laid = 'coats/' + PAGE in self.after and 'coats/' + PAGE not in self.before
        steps = [step for step in self.steps if step[1] in ('coats', 'coats/' + PAGE_UNSYNCED, 'coats/' + UNSYNCED)]
        steps = [(letter, path) for letter, path, *_ in steps if letter not in 'rm' and (letter, path) != ('u', 'coats/' + PAGE_UNSYNCED)]
        expected = [(letter, 'coats/' + PAGE_UNSYNCED) for letter in 'cwsn'] + [('s', 'coats'), ('c', 'coats/' + UNSYNCED)]
        expect(steps[:6] == expected if laid else expected[0] not in steps, '%s: the page comes otherwise' % self.name, steps[:6])

    def check_witnesses(self, ranges):
        """The entries of both trees' roots, and the keys, stand in the journal where it doesn't change them."""
        for name, key in zip(('metadata', 'content'), KEYS):
            tree = self.before.get('coats/%s.tree' % name)
            entries = [(32 + 40 * index, 40) for index in model.roots(((len(tree) - 32) // 40 + 1) // 2)] if tree else []
            for file, places in ((name + '.tree', entries), (key, [(0, 32)] if 'coats/' + key in self.before else [])):
                own = [one for one in ranges if one[0] == file]
                for offset, length in places:
                    changed_here = any(kind != 4 and at < offset + length and offset < at + long for _, kind, at, long, *_ in own)
                    expect(changed_here or any((kind, at, long) == (4, offset, length) for _, kind, at, long, *_ in own), '%s: no witness' % self.name, file, offset)

    def killed(self, at, kind):
        lay(FOLDER, self.before)
        ran = run(*self.words, faults={'UNDER': FOLDER, 'KIND': kind, 'AT': at})
        expect(ran.status == (-9 if at <= len(self.steps) else 0), '%s: %s at step %d' % (self.name, kind, at), ran)

    def power_lost(self, at, kept):
        disk = Disk(self.before)
        for step in self.steps[:at - 1]:
            disk.step(*step)
        lay(FOLDER, disk.lost(kept))

    def lost_while_recovering(self, at, rng):
        """Killed at a step, with nothing lost yet; then power is lost at each step of the run that recovers."""
        killed = Disk(self.before)
        for step in self.steps[:at - 1]:
            killed.step(*step)
        lay(FOLDER, killed.lost(lambda step: [step]))
        if os.path.exists(LOG):
            os.remove(LOG)
        run('journal', ARCHIVE, '--finish', faults={'UNDER': FOLDER, 'KIND': 'log', 'LOG': LOG})
        steps = logged() if os.path.exists(LOG) else []
        for end in range(len(steps) + 1):
            for kept in (nothing, some_of(rng)):
                disk = copy.deepcopy(killed)
                for step in steps[:end]:
                    disk.step(*step)
                lay(FOLDER, disk.lost(kept))
                self.check('killed at step %d, and power lost at step %d of the recovery' % (at, end + 1))
        return len(steps) + 1

    def torn_journals(self, rng):
        """Of a journal that lost a block, an end or a bit nothing was applied where it has not got its name yet: the next change drops it. One that has its
        name may be half applied: it is told, and nothing is changed; reading can pass over it, and it can be set aside."""
        journal = self.journal()
        for number in range(12):
            at, torn = rng.randrange(len(journal)), bytearray(journal)
            if number % 3 == 0:
                torn[at:at + 512] = bytes(len(torn[at:at + 512]))
            elif number % 3 == 1:
                del torn[at:]
            else:
                torn[at] ^= 1 << rng.randrange(8)
            lay(FOLDER, dict(self.before, **{'coats': None, 'coats/' + UNSYNCED: bytes(torn)}))
            self.check('a torn journal', 'before')
            if torn != journal:
                self.told(dict(self.before, **{'coats': None, 'coats/' + JOURNAL: bytes(torn)}))

    def told(self, left):
        lay(FOLDER, left)
        for words in (['audit', ARCHIVE], ['journal', ARCHIVE], self.words):
            ran = run(*words)
            expect(ran.status == 2 and b'nothing is touched' in ran.err and JOURNAL.encode() in ran.err, '%s: a damaged journal' % self.name, ran)
        expect(run('audit', ARCHIVE, '--without-journal').out == self.audits['before'], '%s: not read' % self.name)
        expect(under(FOLDER) == left, '%s: changed beside a damaged journal' % self.name, ran)
        done('journal', ARCHIVE, '--drop')
        expect(under(FOLDER) == dict({name: found for name, found in left.items() if name != 'coats/' + JOURNAL}, **{'coats/%s.dropped' % JOURNAL: left['coats/' + JOURNAL]}),
               '%s: not set aside' % self.name)

    def recoveries(self):
        """Steps to be killed at: with the journal written and not synced, synced, named, its entry synced, and half applied."""
        written = next(k for k, (letter, path, *_) in enumerate(self.steps, 1) if letter == 'w' and path.endswith(UNSYNCED))
        return [written + 1, written + 2, written + 3, written + 4, (written + 4 + len(self.steps)) // 2]

    def check(self, what, only=None):
        """Reading shows the archive before or after, and changes nothing; then what was left is finished, and the files are those of that state."""
        found = under(FOLDER)
        read = run('audit', ARCHIVE)
        expect(under(FOLDER) == found, '%s, %s: reading changed something' % (self.name, what), read)
        ran = run('journal', ARCHIVE, '--finish')
        now = under(FOLDER)
        if 'coats/metadata.tree' not in now and now is not None:
            now.pop('coats/' + UNSYNCED, None)  # the next `new` drops it
            expect(now.get('coats/' + PAGE, page()) == page(), '%s, %s: a page that is not whole' % (self.name, what))
        state = 'before' if self.is_before(now) else 'after' if now == self.after else 'neither'
        expect(state in ((only,) if only else ('before', 'after')), '%s, %s: %s' % (self.name, what, state), ran, sorted(now))
        if 'coats/metadata.tree' in now:
            expect(ran.status == 0 and run('audit', ARCHIVE).out == self.audits[state], '%s, %s: no audit' % (self.name, what), ran)
            expect(read.status == 0 and read.out == self.audits[state], '%s, %s: read as another state' % (self.name, what), read)
        else:
            expect(read.status == 2, '%s, %s: an archive of nothing' % (self.name, what), read)
            done(*self.words)
            expect(under(FOLDER) == self.after, '%s, %s: made again, it is another' % (self.name, what))
        return state

    def is_before(self, now):
        """Where there was no archive, an empty folder is none either, nor one that has a page alone or parts of one."""
        if 'coats/metadata.tree' in self.before:
            return now == self.before
        before, now = ({name: content for name, content in found.items() if os.path.basename(name) not in (PAGE, PAGE_UNSYNCED)} for found in (self.before, now))
        return now == before or ('coats' not in before and now == dict(before, coats=None))

    def full(self, at):
        lay(FOLDER, self.before)
        ran = run(*self.words, faults={'UNDER': FOLDER, 'KIND': 'full', 'AT': at})
        expect(ran.status in (0, 2), '%s: full at step %d' % (self.name, at), ran)
        if b'nothing is changed\n' in ran.err:
            self.check_room('%s: full at step %d' % (self.name, at))
        if b'nothing is changed' in ran.err:
            left = {name for name in under(FOLDER) if name not in self.before}
            expect(not left, '%s: full at step %d: something is left' % (self.name, at), ran, left)
        still = run('journal', ARCHIVE, '--finish', faults={'UNDER': FOLDER, 'KIND': 'full', 'AT': 1})
        expect(still.status in (0, 2), '%s: opened while full at step %d' % (self.name, at), still)
        only = 'after' if ran.status == 0 or b'finishes it' in ran.err or b'the change is made' in ran.err else 'before' if b'nothing is changed' in ran.err else None
        return self.check('full at step %d' % at, only)

    def tight(self):
        """A release on a disk that is full writes its journal in the room that was kept, and is killed at each of its steps. Without that room, and any
        other command, it changes nothing."""
        full = {'UNDER': FOLDER, 'TIGHT': 1}
        if self.words[0] != 'release':
            return 0
        for kept in (False, True):
            self.lay_tight(kept)
            ran = run(*self.words, faults=dict(full))
            expect(ran.status == (0 if kept else 2) and under(FOLDER) == (self.after if kept else self.before), '%s: on a full disk' % self.name, ran)
        at = 0
        while ran.status != 0 or at == 0:
            at += 1
            self.lay_tight(True)
            ran = run(*self.words, faults=dict(full, KIND='kill', AT=at))
            expect(ran.status in (0, -9), '%s: on a full disk' % self.name, ran)
            self.check('killed on a full disk at step %d' % at)
        return 1

    def lay_tight(self, kept):
        lay(FOLDER, self.before)
        if kept:
            open(os.path.join(ARCHIVE, KEPT), 'wb').close()
            subprocess.run(['fallocate', '-n', '-l', '65536', os.path.join(ARCHIVE, KEPT)], check=True)

    def check_room(self, what):
        """No file has room on the disk behind its end."""
        for file in FILES:
            path = os.path.join(ARCHIVE, file)
            if os.path.exists(path):
                about = os.stat(path)
                expect(about.st_blocks * 512 < about.st_size + 4096, what + ': reserved room is kept', file, about)


def made_again(command):
    """`new` is killed when the folder is made and its entry not synced; then it is done, and power is lost: the archive is there."""
    command.killed(2, 'kill')
    disk = Disk(command.before)
    disk.step(*command.steps[0])
    expect(disk.lost(nothing) != disk.lost(lambda step: [step]), 'the entry is synced at once')
    if os.path.exists(LOG):
        os.remove(LOG)
    done(*command.words, faults={'UNDER': FOLDER, 'KIND': 'log', 'LOG': LOG})
    for step in logged():
        disk.step(*step)
    lay(FOLDER, disk.lost(nothing))
    command.check('made again', 'after')


def write_inputs(rng):
    """Pieces of many sizes, the last of zeros alone, a signature and a key."""
    fresh(INPUTS)
    pieces = []
    for k, size in enumerate([0, 1, 64, 300, 4095, 4096, 4097, 20000, 65536]):
        pieces.append(os.path.join(INPUTS, 'piece%d' % k))
        with open(pieces[-1], 'wb') as file:
            file.write(rng.randbytes(size))
    pieces.append(os.path.join(INPUTS, 'zeros'))
    with open(pieces[-1], 'wb') as file:
        file.write(bytes(8192))
    for name, size in (('signature', 64), ('key', 32)):
        with open(os.path.join(INPUTS, name), 'wb') as file:
            file.write(rng.randbytes(size))
    return pieces


def commands(rng):
    """Each command on an archive at the state that it needs."""
    pieces, made = write_inputs(rng), []
    signature, key = os.path.join(INPUTS, 'signature'), os.path.join(INPUTS, 'key')
    signing = ['sign', ARCHIVE, '--metadata', signature, '--content', signature]
    adding = lambda some: ['add', ARCHIVE] + [word for k, piece in enumerate(some) for word in ('--as', '/coat/%d' % k, piece)]
    def command(name, words, before):
        made.append(Command(name, words, before))
        return made[-1].after
    command('new', ['new', ARCHIVE], {})
    state = command('new with keys', ['new', ARCHIVE, '--metadata-key', key, '--content-key', key], {})
    command('new in a folder', ['new', ARCHIVE], {'coats': None})
    command('new without a page', ['new', ARCHIVE, '--no-page'], {})
    command('new where a killed one left parts of a page', ['new', ARCHIVE], {'coats': None, 'coats/' + PAGE_UNSYNCED: page()[:5000]})
    command('new where a killed one left the page', ['new', ARCHIVE], {'coats': None, 'coats/' + PAGE: page()})
    folder = os.path.join(ROOM, 'folder')
    shutil.copytree(INPUTS, folder)
    signed = command('add of a folder, signed', ['add', ARCHIVE, folder, '--signer', SIGNER], state)
    command('add in parts, signed', ['add', ARCHIVE, '--as', '/coat', folder, '--split', '4000', '--times', '--sign-with', SIGNER], signed)
    state = command('first add', adding(pieces[:3]), state)
    state = command('sign', signing, state)
    command('add of zeros', adding(pieces[-1:]), state)
    state = command('add', adding(pieces), state)
    state = command('sign again', signing, state)
    command('release', ['release', ARCHIVE, '7'], state)
    state = command('release of several', ['release', ARCHIVE, '11', '3', '5', '10'], state)
    state = command('add behind released', adding(pieces[::-1]), state)
    command('sign behind released', signing, state)
    whole, roots = office(pieces, signature)
    command('copy in a folder', ['copy', ARCHIVE, '--of', OFFICE], {'coats': None})
    state = command('copy', ['copy', ARCHIVE, '--of', OFFICE], {})
    taking = lambda chunk, *words: ['packet', 'take', ARCHIVE, packet_of('content', chunk), '--number', str(chunk), *words]
    state = command('taking in', taking(4, '--root', roots['content']), state)
    state = command('taking in another', taking(8), state)
    record = ['packet', 'take', ARCHIVE, packet_of('metadata', 0), '--number', '0', '--metadata', '--root', roots['metadata']]
    state = command('taking in a record', record, state)
    state = command('release in a copy', ['release', ARCHIVE, '8'], state)
    command('taking in again', taking(8), state)
    following(command)
    state = command('release to come back', ['release', ARCHIVE, '7', '5'], whole)
    command('coming back', taking(7), state)
    return made


def following(command):
    """Copies for names, files of packets, and copies that grow: by the archive and by a file."""
    grown, sent, growth = (os.path.join(ROOM, 'office', name) for name in ('grown', 'sent', 'growth'))
    command('copy for names in a folder', ['copy', ARCHIVE, '--of', OFFICE, '--names', '/coat/4', '/coat/8'], {'coats': None})
    named = command('copy for names', ['copy', ARCHIVE, '--of', OFFICE, '--names', '/coat/4', '/coat/8'], {})
    bare = command('copy to be filled', ['copy', ARCHIVE, '--of', OFFICE], {})
    done('packets', 'make', OFFICE, '/coat/2', '/coat/7', '-o', sent)
    command('taking in a file', ['packets', 'take', ARCHIVE, sent, '--of', OFFICE], bare)
    held = command('taking in a file behind others', ['packets', 'take', ARCHIVE, sent], named)
    shutil.copytree(OFFICE, grown)
    done('add', grown, *[word for k in range(5) for word in ('--as', '/more/%d' % k, os.path.join(INPUTS, 'piece%d' % (8 - k)))], '--signer', SIGNER)
    done('packets', 'make', grown, '/more/2', '--since', '11,10', '-o', growth)
    command('growing', ['grow', ARCHIVE, '--of', grown], held)
    command('growing by a file', ['grow', ARCHIVE, growth, '--of', grown], named)
    command('growing while nothing is known', ['grow', ARCHIVE, '--of', grown], bare)


def packet_of(register, chunk):
    return os.path.join(INPUTS, 'packet of %s %d' % (register, chunk))


def office(pieces, signature):
    """Another archive, with packets of its chunks and its root hashes; it is given as a state of the archives' folder."""
    fresh(os.path.dirname(OFFICE))
    done('new', OFFICE)
    done('add', OFFICE, *[word for k, piece in enumerate(pieces) for word in ('--as', '/coat/%d' % k, piece)])
    done('sign', OFFICE, '--metadata', signature, '--content', signature)
    for register, flags in (('content', []), ('metadata', ['--metadata'])):
        for chunk in range(9):
            done('packet', 'make', OFFICE, str(chunk), '-o', packet_of(register, chunk), *flags)
    roots = dict(line.split() for line in done('root', OFFICE).out.decode().splitlines())
    return dict({'coats': None}, **{'coats/' + name: found for name, found in under(OFFICE).items()}), roots


def several_commits(rng):
    """An `add` of several commits is killed, torn or without room at each step: as many commits stand as were made, each wholly, and all files of them."""
    pieces = fresh(os.path.join(ROOM, 'large'))
    for k in range(3):
        with open(os.path.join(pieces, str(k)), 'wb') as file:
            file.write(rng.randbytes(600000) + bytes(100000))
    words = lambda *some: ['add', ARCHIVE, *[word for k in some for word in ('--as', '/%d' % k, os.path.join(pieces, str(k)))], '--split', '65536', '--commit-every', '1', '--signer', SIGNER]
    lay(FOLDER, {})
    done('new', ARCHIVE)
    states = [under(FOLDER)]
    for k in range(3):
        done(*words(k))
        states.append(under(FOLDER))
    lay(FOLDER, states[0])
    if os.path.exists(LOG):
        os.remove(LOG)
    done(*words(0, 1, 2), faults={'UNDER': FOLDER, 'KIND': 'log', 'LOG': LOG})
    expect(under(FOLDER) == states[3], 'several commits make another archive')
    steps, least = len(logged()), 0
    for at in range(1, steps + 2):
        for kind in ('kill', 'torn', 'full'):
            lay(FOLDER, states[0])
            ran = run(*words(0, 1, 2), faults={'UNDER': FOLDER, 'KIND': kind, 'AT': at})
            expect(ran.status == (2 if kind == 'full' else -9) or at > steps - 4, 'several commits: %s at step %d' % (kind, at), ran)
            done('journal', ARCHIVE, '--finish')
            now = under(FOLDER)
            expect(now in states, 'several commits: %s at step %d: no commit wholly' % (kind, at), ran)
            commits = states.index(now)
            expect(commits >= least, 'several commits: one that stood is gone', at)
            if kind == 'full' and ran.status == 2 and commits < 3:
                signed, stands = b'signed and not stored: ' in ran.out, b'written down in ' in ran.err or b'the change is made' in ran.err
                expect(signed != stands, 'what was signed is not printed, or it is stored', ran)
                said = commits - stands
                expect(said == 0 or b'%d of 3 files are in the archive' % said in ran.err, 'not said how far', ran)
        least = commits
    return steps


def long_journal(rng):
    """An `add` whose journal is written while its end is made is killed, torn or without room at some of its many writes, and at each step from the journal's
    last bytes on until the files are written: it stands wholly, or nothing of it does."""
    lay(FOLDER, {})
    done('new', ARCHIVE)
    before, piece = under(FOLDER), os.path.join(INPUTS, 'long')
    with open(piece, 'wb') as file:
        file.write(rng.randbytes(9 << 20))
    words = ['add', ARCHIVE, '--as', '/long', piece, '--split', '65536', '--signer', SIGNER]
    if os.path.exists(LOG):
        os.remove(LOG)
    done(*words, faults={'UNDER': FOLDER, 'KIND': 'log', 'LOG': LOG})
    steps, after, count = logged(), under(FOLDER), 0
    own = [at for at, step in enumerate(steps, 1) if step[0] == 'w' and step[1].endswith(UNSYNCED)]
    expect(len(own) > 30 and steps[own[-2] - 1][2] == 0, 'the first bytes of a long journal come when its end is made', len(own))
    for at in own[:1] + sorted(rng.sample(own[1:-2], 2)) + list(range(own[-2], own[-1] + 8)):
        for kind in ('kill', 'torn', 'full'):
            lay(FOLDER, before)
            ran = run(*words, faults={'UNDER': FOLDER, 'KIND': kind, 'AT': at})
            expect(ran.status == (2 if kind == 'full' else -9), 'a long journal: %s at step %d' % (kind, at), ran)
            expect(kind != 'full' or (b'nothing is changed' in ran.err) != (b'written down in ' in ran.err), 'not said what is', ran)
            done('journal', ARCHIVE, '--finish')
            now = {name: content for name, content in under(FOLDER).items() if not name.endswith(KEPT)}
            expect(any(now == {name: content for name, content in state.items() if not name.endswith(KEPT)} for state in (before, after)),
                   'a long journal: %s at step %d: neither before nor after' % (kind, at), sorted(now))
            count += 1
    return count


def given_out(rng):
    """`export` and `get -o` are killed, torn or without room at each step: what bears a piece's name is the piece, whole, and nothing else has changed but
    files of the program's own names; then they are done again. After the end no loss of power takes anything."""
    parts = {'a': rng.randbytes(5000), 'd/b': rng.randbytes(3), 'd/e/c': b''}
    lay(FOLDER, {})
    fresh(os.path.join(ROOM, 'large'))
    for name, content in parts.items():
        place = os.path.join(ROOM, 'large', name)
        os.makedirs(os.path.dirname(place), exist_ok=True)
        with open(place, 'wb') as file:
            file.write(content)
    done('new', ARCHIVE)
    done('add', ARCHIVE, '--as', '/', os.path.join(ROOM, 'large'), '--split', '1000', '--times', '--signer', SIGNER)
    archive, count = under(FOLDER), 0
    for words, wanted in ((['export', ARCHIVE, OUT], parts), (['export', ARCHIVE, OUT, '--overwrite'], parts), (['get', ARCHIVE, '/a', '-o', os.path.join(OUT, 'a')], {'a': parts['a']})):
        before = dict(archive, **({} if words[-1] == OUT else {'out': None, 'out/a': b'another'}))
        lay(FOLDER, before)
        if os.path.exists(LOG):
            os.remove(LOG)
        done(*words, faults={'UNDER': FOLDER, 'KIND': 'log', 'LOG': LOG})
        steps, after = logged(), under(FOLDER)
        expect({name[4:]: content for name, content in after.items() if name.startswith('out/') and content is not None} == wanted, 'other files', sorted(after))
        for at in range(1, len(steps) + 2):
            for kind in ('kill', 'torn', 'full'):
                lay(FOLDER, before)
                ran = run(*words, faults={'UNDER': FOLDER, 'KIND': kind, 'AT': at})
                expect(ran.status in ((0, 1, 2) if kind == 'full' else (-9, 0)), '%s: %s at step %d' % (words[0], kind, at), ran)
                now = {name: content for name, content in under(FOLDER).items() if kind == 'full' or not os.path.basename(name).startswith('.sleep-archive.')}
                whole = all(content in (after.get(name, b'no such file'), before.get(name, b'no such file')) for name, content in now.items())
                expect(whole and all(now[name] == archive[name] for name in archive), '%s: %s at step %d: a file is not whole' % (words[0], kind, at), ran, sorted(now))
                expect(kind != 'full' or ran.status == 0 or at <= len(steps), '%s without room: not told' % words[0], ran)
                count += 1
        if words[0] == 'export':
            disk = Disk(before)
            for step in steps:
                disk.step(*step)
            expect(disk.lost(nothing) == after, 'lost after the end of an export')
    return count


def main(count, seed):
    rng = random.Random(seed)
    fresh(ROOM)
    made, recovering, states = commands(rng), 0, {'before': 0, 'after': 0}
    for command in made[:2]:
        made_again(command)
    print('faults: %d releases on a full disk, from room that was kept, killed at each step' % sum(command.tight() for command in made))
    for command in made:
        for at in range(1, len(command.steps) + 2):
            for kind in ('kill', 'torn'):
                command.killed(at, kind)
                states[command.check('%s at step %d' % (kind, at))] += 1
            for kept in (nothing, some_of(rng)):
                command.power_lost(at, kept)
                states[command.check('power lost at step %d' % at)] += 1
            states[command.full(at)] += 1
        command.torn_journals(rng)
        recovering += sum(command.lost_while_recovering(at, rng) for at in command.recoveries())
    print('faults: an add of three commits, %d steps: as many stand as were made' % several_commits(rng))
    print('faults: a long journal, %d faults: before or after' % long_journal(rng))
    print('faults: export and get -o, %d times: what bears a piece\'s name is whole' % given_out(rng))
    steps = sum(len(command.steps) for command in made)
    print('faults: %d commands, %d steps, each met by a kill, a torn write, dropped writes (all, some) and a full disk: %d times the archive before, %d after'
          % (len(made), steps, states['before'], states['after']))
    print('faults: power lost at %d steps of recoveries as well' % recovering)
    again = randomly(made, rng, count)
    print('faults: %d drawn at random, %d recoveries killed among them: before or after, and accepted, every time' % (count, again))


def randomly(made, rng, count):
    again = 0
    for _ in range(count):
        command = rng.choice(made)
        at, kind = rng.randrange(1, len(command.steps) + 2), rng.choice(['kill', 'torn', 'all', 'some', 'some'])
        if kind in ('kill', 'torn'):
            command.killed(at, kind)
        else:
            command.power_lost(at, nothing if kind == 'all' else some_of(rng))
        while rng.random() < 0.4:
            run('journal', ARCHIVE, '--finish', faults={'UNDER': FOLDER, 'KIND': rng.choice(['kill', 'torn', 'full']), 'AT': rng.randrange(1, 40)})
            again += 1
        command.check('%s at step %d' % (kind, at))
    return again


if __name__ == '__main__':
    main(*[int(word) for word in sys.argv[1:3]] + [100, 1][len(sys.argv[1:3]):])
