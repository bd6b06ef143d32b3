"""The program over files, run as a person would run it, and what lies in folders."""

import hashlib
import os
import re
import shutil
import stat
import subprocess
import sys

sys.dont_write_bytecode = True  # nothing generated lies beside the sources
HERE = os.path.dirname(os.path.abspath(__file__))
sys.path.insert(0, os.path.join(os.path.dirname(HERE), 'model'))
TARGET = os.path.join(os.path.dirname(os.path.dirname(HERE)), 'target')
PROGRAM = os.path.join(TARGET, 'tools', 'sleep-archive')
FAULTS = os.path.join(TARGET, 'tests', 'faults.so')
KINDS = ('tree', 'signatures', 'bitfield', 'data')
FILES = [name + '.' + kind for name in ('metadata', 'content') for kind in KINDS]
JOURNAL = 'sleep-archive.journal'
UNSYNCED = JOURNAL + '.new'  # its name until all of it is synced
PAGE = 'README.txt'  # the page of the format, and its name until all of it is synced
PAGE_UNSYNCED = 'sleep-archive.page.new'
KEPT = 'sleep-archive.room'  # room on the disk for the journal of a release; whether it is there is no part of an archive's state


class Ran:
    """What a command left: its exit status, and what it printed."""

    def __init__(self, status, out, err):
        self.status, self.out, self.err = status, out, err

    def __repr__(self):
        return 'status %s\n%s%s' % (self.status, self.out.decode(errors='replace'), self.err.decode(errors='replace'))

    def refusals(self):
        """The numbers and places of all refusals in the order of printing, those on standard output first."""
        found = re.findall(rb'refused with (\d+): [^;\n]*(?:; at (tree index|byte) (\d+))?', self.out + self.err)
        kinds = {b'tree index': 'tree', b'byte': 'bitfield'}
        return [(int(number), (kinds[kind], int(place)) if kind else None) for number, kind, place in found]


def environment(faults=None):
    """With `faults`, a dictionary of FAULTS_.. for the library that makes them. No run waits for the disk: the syncs are tested by their place among the
    steps."""
    faults = {'FAULTS_' + name: str(value) for name, value in (faults or {}).items()}
    return dict(os.environ, LC_ALL='C', LD_PRELOAD=FAULTS, FAULTS_QUICK='1', **faults)


def run(*words, stdin=b'', cwd=None, faults=None):
    ran = subprocess.run([PROGRAM, *words], input=stdin, capture_output=True, cwd=cwd, env=environment(faults))
    return Ran(ran.returncode, ran.stdout, ran.stderr)


def expect(holds, what, *shown):
    if not holds:
        raise SystemExit('\n'.join([what, *(repr(one)[:3000] for one in shown)]))


def done(*words, **named):
    ran = run(*words, **named)
    expect(ran.status == 0, 'not done: %r' % (words,), ran)
    return ran


def fresh(path):
    """An empty folder."""
    shutil.rmtree(path, ignore_errors=True)
    os.makedirs(path)
    return path


def what_is_at(path):
    """The bytes of a plain file, where a link leads, or the kind of anything else, which is not opened."""
    kind = stat.S_IFMT(os.lstat(path).st_mode)
    if kind == stat.S_IFLNK:
        return b'a link to ' + os.fsencode(os.readlink(path))
    if kind != stat.S_IFREG:
        return b'no plain file: %o' % kind
    with open(path, 'rb') as file:
        return file.read()


def under(path):
    """All that lies under a folder but kept room: folders as None, files as their bytes. None where there is no such folder."""
    if not os.path.isdir(path):
        return None
    found = {}
    for folder, folders, files in os.walk(path):
        for name in folders:
            found[os.path.relpath(os.path.join(folder, name), path)] = None
        for name in files:
            if name != KEPT:
                found[os.path.relpath(os.path.join(folder, name), path)] = what_is_at(os.path.join(folder, name))
    return found


def version():
    """The program's version, as tools/Cargo.toml has it."""
    with open(os.path.join(os.path.dirname(TARGET), 'tools', 'Cargo.toml')) as file:
        return re.search(r'^version = "(.*)"$', file.read(), re.M)[1]


def page():
    """The page that `new` and `copy` lay into the folder: lines that name it and its version, then docs/FORMAT.md."""
    head = ('The page of the format, as sleep-archive %s has it.\n\n'
            'This folder is an archive: the files of two registers, content and metadata. Pieces are in the content register, and their names in the metadata\n'
            'register. What follows says what each byte means, so that a reader can be written from it. Nothing in the archive depends on this file.\n\n' % version())
    with open(os.path.join(os.path.dirname(TARGET), 'docs', 'FORMAT.md'), 'rb') as file:
        return head.encode() + file.read()


def lay(path, found):
    """Makes a folder hold just what `under` gave."""
    shutil.rmtree(path, ignore_errors=True)
    if found is None:
        return
    os.makedirs(path)
    for name in sorted(found):
        if found[name] is None:
            os.makedirs(os.path.join(path, name))
        else:
            with open(os.path.join(path, name), 'wb') as file:
                file.write(found[name])


# ---- journals, as docs/FORMAT.md has them ----
KEYS = ['metadata.key', 'content.key']
MAGIC = b'sleep-archive 2\n'


def parsed(journal):
    """The states of the ten files, before and after, and the ranges: file, kind, offset, length, old bytes, new bytes."""
    expect(journal[:16] == MAGIC and int.from_bytes(journal[16:24], 'big') == len(journal), 'no journal', journal[:24])
    numbers = [int.from_bytes(journal[24 + 8 * k:32 + 8 * k], 'big') for k in range(20)]
    states = {name: (numbers[2 * k], numbers[2 * k + 1]) for k, name in enumerate(FILES + KEYS)}
    at, ranges = 184, []
    while at < len(journal) - 32:
        number, kind = journal[at], journal[at + 1]
        offset, length = (int.from_bytes(journal[at + k:at + k + 8], 'big') for k in (2, 10))
        old = journal[at + 18:at + 18 + length] if kind in (1, 4) else b''
        new = journal[at + 18 + len(old):at + 18 + len(old) + length] if kind in (1, 2) else b''
        ranges.append(((FILES + KEYS)[number], kind, offset, length, old, new))
        at += 18 + len(old) + len(new)
    expect(at == len(journal) - 32, 'the journal has another form')
    return states, ranges


def encoded(states, ranges, length=None, sum_of=None):
    """The bytes of a journal; `length` and `sum_of` are for wrong ones."""
    names = FILES + KEYS
    parts = [state.to_bytes(8, 'big') for name in names for state in states[name]]
    for name, kind, offset, size, old, new in ranges:
        parts += [bytes([names.index(name) if name in names else name, kind]), offset.to_bytes(8, 'big'), size.to_bytes(8, 'big'), old, new]
    body = b''.join(parts)
    whole = MAGIC + (216 + len(body) - 160 if length is None else length).to_bytes(8, 'big') + body
    return whole + hashlib.blake2b(whole if sum_of is None else sum_of, digest_size=32).digest()
