"""Journals that were copied along: the journal of each command of a short history over every state of that history, and over mixtures of its files; and a
play of incremental backups. A journal that does not belong to the state is told, and nothing is touched; where it is not told, finishing it changes
nothing, or the files were byte for byte those before its change.

usage: python3 tests/tool/stale.py [NIGHTS [SEED]]
"""

import os
import random
import shutil
import subprocess
import sys

from program import FILES, JOURNAL, KEYS, PROGRAM, TARGET, done, environment, expect, fresh, lay, run, under

ROOM = os.path.join(TARGET, 'tests', 'tool', 'stale')
ARCHIVE = os.path.join(ROOM, 'archive')
BACKUP = os.path.join(ROOM, 'backup')
INPUTS = os.path.join(ROOM, 'inputs')
TOLD = b'belongs to another state of this archive, or to another one'


def place(name):
    return os.path.join(INPUTS, name)


def journal_of(words, before):
    """The journal that a command writes, met just before it is removed; and the state afterwards."""
    last, found = None, under(ARCHIVE)
    for at in range(1, 200):
        lay(ARCHIVE, before)
        ran = run(*words, faults={'UNDER': ROOM, 'KIND': 'kill', 'AT': at})
        now = under(ARCHIVE) or {}
        last = now.get(JOURNAL, last)
        if ran.status == 0:
            return last, now
        expect(ran.status == -9, 'not killed', ran)
    raise SystemExit('no end')


def history(start, commands):
    """The states of an archive after each command, and the journals of all but the first state."""
    states, journals = [start], [None]
    for words in commands:
        journal, state = journal_of(words, states[-1])
        expect(journal is not None, 'no journal', words)
        states.append(state)
        journals.append(journal)
    return states, journals


def told_or_harmless(states, journals, names):
    """Each journal over each state."""
    counts = {'told': 0, 'its own': 0, 'changes nothing': 0, 'byte for byte before': 0}
    for made, journal in enumerate(journals):
        if journal is None:
            continue
        for at, state in enumerate(states):
            if state is None:
                continue
            lay(ARCHIVE, dict(state, **{JOURNAL: journal}))
            left = under(ARCHIVE)
            read = run('audit', ARCHIVE)
            expect(under(ARCHIVE) == left, 'reading changed something', names[made], at)
            ran = run('journal', ARCHIVE, '--finish')
            now = under(ARCHIVE)
            if TOLD in ran.err:
                expect(read.status == 2 and TOLD in read.err and now == left and at not in (made - 1, made), 'told, and changed', names[made], at, ran)
                counts['told'] += 1
                continue
            expect(read.status == ran.status == 0 and JOURNAL not in now, 'neither told nor done', names[made], at, read, ran)
            kind = 'its own' if at in (made - 1, made) else 'changes nothing' if now == state else 'byte for byte before' if state == states[made - 1] else None
            expect(kind and (kind != 'its own' or now == states[made]) and (kind != 'byte for byte before' or now == states[made]),
                   'a stale journal does harm: that of %s over the state after %s' % (names[made], names[at]), read)
            counts[kind] += 1
    return counts


def mixtures(states, journals, rng, count):
    """A journal over files of several states, as a copy that is not made at once may have them: told, or the files are one of its own states or between."""
    told = 0
    for _ in range(count):
        made = rng.randrange(1, len(journals))
        some = [state for state in rng.choices(states, k=3) if state]
        if journals[made] is None or not some:
            continue
        mixed = {name: content for name in FILES + KEYS for content in [rng.choice(some).get(name)] if content is not None}
        lay(ARCHIVE, dict(mixed, **{JOURNAL: journals[made]}))
        left = under(ARCHIVE)
        run('list', ARCHIVE)
        expect(under(ARCHIVE) == left, 'reading changed something')
        ran = run('journal', ARCHIVE, '--finish')
        now = under(ARCHIVE)
        if ran.status:
            expect(now == left, 'told, and changed', ran)
            told += 1
            continue
        before, after = states[made - 1] or {}, states[made]
        for name in FILES + KEYS:
            expect(len(before.get(name, b'')) <= len(mixed.get(name, b'')) <= len(after.get(name, b'')), 'a length from elsewhere is taken', name)
            expect(len(now.get(name, b'')) == len(after.get(name, b'')), 'a file is cut or grew', name)
    return told


def registers(rng):
    """The commands of a whole register's short history, and of a copy's."""
    fresh(INPUTS)
    for name, size in [('signature', 64), ('key', 32)] + [('piece%d' % k, size) for k, size in enumerate((300, 5000, 65536, 0, 4096, 777))]:
        with open(place(name), 'wb') as file:
            file.write(rng.randbytes(size))
    add = lambda *pieces: ['add', ARCHIVE] + [word for k in pieces for word in ('--as', '/%d' % k, place('piece%d' % k))]
    sign = ['sign', ARCHIVE, '--metadata', place('signature'), '--content', place('signature')]
    take = lambda k, *words: ['packet', 'take', ARCHIVE, place('packet%d' % k), '--number', str(k), *words]
    whole = [['new', ARCHIVE, '--metadata-key', place('key')], add(0, 1, 2, 3, 4, 5), sign, ['release', ARCHIVE, '1'], take(1), ['release', ARCHIVE, '1'], ['release', ARCHIVE, '2'],
             take(2), take(1), ['release', ARCHIVE, '0', '5'], add(3, 2), sign, ['release', ARCHIVE, '7']]
    office = os.path.join(ROOM, 'office')
    done('new', office)
    done('add', office, *add(0, 1, 2, 3, 4, 5)[2:])
    for k in range(6):
        done('packet', 'make', office, str(k), '-o', place('packet%d' % k))
    root = done('root', office, 'content').out.split()[1].decode()
    copied = [['copy', ARCHIVE, '--of', office], take(0, '--root', root), take(1), take(5), ['release', ARCHIVE, '1'], take(2), take(1), ['release', ARCHIVE, '0']]
    return whole, copied


def night(words, rng, state):
    """A backup that is made while a command is stopped at some step, by copying over what the backup has; nothing there is removed."""
    lay(ARCHIVE, state)
    process = subprocess.Popen([PROGRAM, *words], env=environment({'UNDER': ROOM, 'KIND': 'stop', 'AT': rng.randrange(1, 40)}), stdout=subprocess.DEVNULL)
    _, status = os.waitpid(process.pid, os.WUNTRACED)
    shutil.copytree(ARCHIVE, BACKUP, dirs_exist_ok=True)
    seen = under(ARCHIVE)
    if os.WIFSTOPPED(status):
        process.send_signal(18)
        process.wait()
    process.returncode = 0
    return seen, under(ARCHIVE)


def backups(rng, nights):
    """A backup folder that is copied over night by night, with journals left in it: reading it never changes it, and shows that night's archive, or tells."""
    state, told, right = None, 0, 0
    shutil.rmtree(BACKUP, ignore_errors=True)
    shutil.rmtree(ARCHIVE, ignore_errors=True)
    done('new', ARCHIVE)
    state = under(ARCHIVE)
    for number in range(nights):
        owed = done('sign', ARCHIVE).out
        words = ['sign', ARCHIVE, '--metadata', place('signature'), '--content', place('signature')] if owed else \
            ['add', ARCHIVE, '--as', '/%d' % number, place('piece%d' % rng.randrange(6))]
        seen, state = night(words, rng, state)
        left = under(BACKUP)
        ran = run('audit', BACKUP)
        expect(under(BACKUP) == left, 'reading a backup changed it', ran)
        if ran.status == 2:
            expect(JOURNAL in left and JOURNAL not in seen, 'told without a stale journal', ran)
            told += 1
            expect(run('audit', BACKUP, '--without-journal').status == 0, 'the files are not that night\'s')
            done('journal', BACKUP, '--drop')
        else:
            lay(ARCHIVE, seen)
            expect(ran.status == 0 and ran.out == done('audit', ARCHIVE).out, 'a backup is read as another archive', ran)
            right += 1
        done('audit', BACKUP)
        lay(ARCHIVE, state)
    return told, right


def main(nights, seed):
    rng = random.Random(seed)
    fresh(ROOM)
    for what, commands in zip(('a register', 'a copy'), registers(rng)):
        states, journals = history(None, commands)
        names = ['nothing'] + [' '.join([words[0]] + words[2:])[:40] for words in commands]
        counts = told_or_harmless(states, journals, names)
        told = mixtures(states, journals, rng, 300)
        print('stale: %d journals of %s over %d states: %s; of 300 mixtures %d told' % (len(journals) - 1, what, len(states), ', '.join('%d %s' % (n, k) for k, n in counts.items()), told))
    told, right = backups(rng, nights)
    print('stale: %d nights of incremental backups: %d read as that night\'s archive, %d told, none changed' % (nights, right, told))


if __name__ == '__main__':
    main(*[int(word) for word in sys.argv[1:3]] + [40, 1][len(sys.argv[1:3]):])
