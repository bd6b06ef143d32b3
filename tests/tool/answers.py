"""What the program says about an archive is what its images give: every command on random archives, damaged ones among them, beside the model.

usage: python3 tests/tool/answers.py [ROUNDS [SEED]]

In each round an archive grows by commands, and each of its files is compared with the model's images after each of them. A partial copy of it is
made and takes in packets, some of them back in the archive itself. Then both are
damaged: bytes changed, files cut short, made longer, exchanged or taken away; and every command is tried on them, those that write too. The
numbers n, s and the data size are taken from the files' lengths here as FORMAT.md says it, and all else from the model.
"""

import copy
import json
import os
import random
import re
import shutil
import sys

from program import FILES, KINDS, PAGE, TARGET, expect, fresh, lay, page, run, under, version
import copy_model
import needs as needs_model
import record_model as records
import sleep_model as model

ROOM = os.path.join(TARGET, 'tests', 'tool', 'answers')
NAMES = ('metadata', 'content')
WORDS = ['/', '/coat', '/coat/', '/coat/sleeve', '/x', '/nosuch', '/*', '/coat/*', '**e*', '/**/[0-9]', '/caf?', '/other/[0-4]', '**', '/*/?']


class Unreadable(Exception):
    """The files are those of no archive, or a name is given to two pieces: status 2."""


def counted(images):
    """A register of four files, whose lengths give n, s and the data size; without signatures a partial copy."""
    tree, signatures, bitfield, data = images
    for image, entry in ((tree, 40), (b' ' * 32 if signatures is None else signatures, 64), (bitfield, 3328)):
        if len(image) < 32 or (len(image) - 32) % entry:
            raise Unreadable
    entries = (len(tree) - 32) // 40
    if entries and entries % 2 == 0:
        raise Unreadable
    n = (entries + 1) // 2
    if (len(bitfield) - 32) // 3328 > model.bitfield_entries(n):
        raise Unreadable
    if signatures is None:
        return copy_model.Copy(*map(bytearray, (tree, bitfield, data)), n, len(data))
    return model.Register(*map(bytearray, images), n, (len(signatures) - 32) // 64, len(data))


def is_copy(r):
    return isinstance(r, copy_model.Copy)


def is_fresh(r):
    """A copy of which no root is known: nothing was taken in."""
    return is_copy(r) and model.root_hash(r)[:2] == ('refused', 20)


def whole(*registers):
    """What is not for copies."""
    if any(map(is_copy, registers)):
        raise Several([None])


def registers_in(folder):
    """Both registers of a folder."""
    found = under(folder)
    if found is None or any(found.get(name) is None for name in FILES if not name.endswith('.signatures')):
        raise Unreadable
    return [counted([found.get(name + '.' + kind) for kind in KINDS]) for name in NAMES]


def with_room(r, count, length, signatures=0):
    """The same with room for so many chunks and bytes more, and for signatures."""
    whole(r)
    r = copy.deepcopy(r)
    sizes = model.used_sizes(r.n + count, r.s + signatures + max(0, count - 1), r.size + length)
    for kind, size in zip(KINDS, sizes):
        getattr(r, kind).extend(bytes(max(0, size - len(getattr(r, kind)))))
    return r


def as_files(registers):
    """The files of an archive: each image as long as its used size."""
    return {name + '.' + kind: bytes(getattr(r, kind)[:size])
            for name, r in zip(NAMES, registers) for kind, size in zip(KINDS, model.used_sizes(r.n, r.s or 0, r.size))
            if not (is_copy(r) and kind == 'signatures')}


class Refused(Exception):
    """args: the number and the place of a refusal of the model."""


def given(answer):
    """What a done call of the model gives."""
    if answer[0] == 'refused':
        raise Refused(answer[1], answer[2])
    return answer[1] if len(answer) == 2 else answer[1:]


class Tried:
    """Commands on one archive, each beside what the model makes of its files."""
    counts, marked = {}, 0

    def __init__(self, rng, folder, inputs):
        self.rng, self.folder, self.inputs = rng, folder, inputs

    def command(self, words, expected, writes=False, stdin=b'', first=lambda: None):
        """`expected` gives what is printed (None where it isn't compared) and the registers afterwards where the command writes; or raises. `first` raises
        where something is wrong with what the command was given, which is told before the archive is looked at."""
        before = under(self.folder)
        ran = run(*words, stdin=stdin)
        now = under(self.folder)
        try:
            first()
            registers = registers_in(self.folder if not writes else self.laid(before))
            printed, after = expected(*registers) if writes else (expected(*registers), None)
            status, refusals = 0, []
        except Unreadable:
            status, printed, after, refusals = 2, None, None, []
        except Refused as refusal:
            status, printed, after, refusals = 1, None, None, [refusal.args]
        except Several as several:
            status, printed, after, refusals = 1, None, None, several.args[0]
        shown = (words, ran, 'expected', status, refusals, printed)
        expect(ran.status == status, 'another status', *shown)
        if refusals and refusals != [None]:
            expect(ran.refusals() == refusals, 'another refusal', *shown, ran.refusals())
        expect(printed is None or ran.out == printed, 'another answer', *shown)
        if after is None:
            expect(now == before, 'changed something', *shown)
        else:
            expect({name: now[name] for name in FILES if name in now} == as_files(after), 'other files', *shown)
            expect(set(now) == set(before), 'files came or went', *shown)
        name = (words[0], status)
        Tried.counts[name] = Tried.counts.get(name, 0) + 1
        return ran

    def laid(self, found):
        lay(self.folder + '.was', found)
        return self.folder + '.was'

    # ---- reading ----
    def status(self):
        def expected(*registers):
            lines = b''
            for name, r in zip(NAMES, registers):
                known = b''
                if is_fresh(r):
                    known = b'; nothing is taken in yet of its %s, so %s: `sleep-archive packets take %s FILE --root METADATA,CONTENT` takes in a file that `packets make` made of ' \
                        b'the archive, under root hashes that you know from it or from a sheet' % (
                            plural(r.n, b'chunk'), b'no name is known' if name == 'metadata' else b'no piece is held', self.folder.encode())
                else:
                    given(model.root_hash(r))
                    known = b', %d of them held' % (r.n - len(not_held(r, 0))) if is_copy(r) else b''
                lines += b'%s: %s%s\n' % (name.encode(), shown_counts(r), known)
            return lines + b'page: %s\n' % shown_page(self.folder)
        self.command(['status', self.folder], expected)

    def audit(self):
        def expected(*registers):
            answers = [copy_model.audit_copy(r) if is_copy(r) else model.audit(r) for r in registers]
            refusals = [answer[1:] for answer in answers if answer[0] == 'refused']
            if refusals:
                raise Several(refusals)
            return b''.join(b'%s: accepted, %s%s\n' % (name.encode(), shown_counts(r), shown_root(r)) for name, r in zip(NAMES, registers))
        self.command(['audit', self.folder], expected)

    def root(self):
        first = self.rng.choice([None, self.rng.randrange(12)])
        def expected(*registers):
            roots = [given(model.root_hash(r) if first is None else model.old_root(r, first)) for r in registers]
            return b''.join(b'%s %s\n' % (name.encode(), root.hex().encode()) for name, root in zip(NAMES, roots))
        self.command(['root', self.folder] + ([] if first is None else ['--first', str(first)]), expected)

    def label(self):
        key = self.rng.randbytes(self.rng.choice([0, 1, 32, 64, 65]))
        file = self.inputs.file(key)
        name = self.rng.choice(NAMES)
        def expected(*registers):
            root = given(model.root_hash(registers[NAMES.index(name)]))
            return b'%s %s\n' % (name.encode(), given(model.label(root, key)).hex().encode())
        self.command(['label', self.folder, name, '--key', file], expected)

    def chunk_number(self):
        return self.rng.choice([self.rng.randrange(40), self.rng.randrange(8), 1048576])

    def get(self):
        chunk, name = self.chunk_number(), self.rng.choice(NAMES)
        expected = lambda metadata, content: given(model.read(metadata, content, name, chunk))
        self.command(['get', self.folder, str(chunk)] + (['--metadata'] if name == 'metadata' else []), expected)

    def get_named(self):
        path = self.inputs.path()
        def expected(metadata, content):
            return given(model.read(metadata, content, 'content', chunk_named(metadata, content, path)))
        self.command(['get', self.folder, path], expected)

    def list(self):
        """A record that is refused is marked, with its number and the refusal; the others are listed."""
        every, form = self.rng.random() < 0.5, self.rng.choice([None, None, '--long', '--json', '-0'])
        words = [self.rng.choice(WORDS) for _ in range(self.rng.choice([0, 0, 0, 1, 2]))]
        def expected(metadata, content):
            missing, seen, lines, marked, met = set(range(content.n)) if is_fresh(content) else set(not_held(content, 0)), set(), [], [], set()
            if is_fresh(metadata):
                given(model.root_hash(metadata))
            for chunk in reversed(range(metadata.n)):
                answer = records.read_record(metadata, chunk)
                if is_copy(metadata) and answer[0] == 'refused' and answer[1] in (18, 20):
                    pass  # not held in this copy: no mark, and its name is not known
                elif answer[0] == 'refused':
                    if answer[2] is None and answer[1] != 15:
                        raise Refused(*answer[1:])
                    marked.append(answer[1:])
                    lines.append(None)
                elif chunk and (every or answer[1].path not in seen):
                    means = [word for word in words if is_meant(word, answer[1].path)]
                    met.update(means)
                    if means or not words:
                        lines.append(list_line(answer[1], content.n, missing, form, chunk))
                    seen.add(answer[1].path)
            if marked:
                raise Several(marked[::-1] if form != '-0' else [None])
            if met != set(words):
                raise Several([None])
            if form == '--json':
                return b'[\n' + b',\n'.join(reversed(lines)) + b'\n]\n' if lines else b'[]\n'
            return b''.join(reversed(lines))
        ran = self.command(['list', self.folder, *words] + (['--all'] if every else []) + ([form] if form else []), expected)
        if ran.status == 1 and ran.refusals():
            Tried.marked += len(ran.refusals())

    def diff(self, other):
        """Between two archives, or since one had fewer chunks."""
        first = None if self.rng.random() < 0.7 else (self.rng.randrange(12), self.rng.randrange(12))
        def expected(metadata, content):
            if first is None:
                others = registers_in(other)
                first_checks(content)
                before = names_of(metadata)
                first_checks(others[1])
                after, whence = names_of(others[0]), others[1]
            else:
                if first[0] > metadata.n or first[1] > content.n:
                    raise Several([None])
                first_checks(content)
                after, before, whence = names_of(metadata), names_of(metadata, first[0]), content
                if any(stat.offset is None or stat.offset + (stat.blocks or 1) > first[1] for _, stat in before.values()):
                    raise Several([None])
            lines = b''
            for name in sorted({*before, *after}):
                word = b'added' if name not in before else b'missing' if name not in after else None
                if word is None and (first is None or before[name][0] != after[name][0]):
                    word = differs(before[name], content, after[name], whence)
                lines += b'' if word is None else b'%-8s%s\n' % (word, name)
            Tried.told = lines
            if lines:
                raise Several([None])
            return lines
        Tried.told = None
        ran = self.command(['diff', self.folder] + ([other] if first is None else ['--first', '%d,%d' % first]), expected)
        expect(Tried.told is None or ran.out == Tried.told, 'other differences', ran, Tried.told)
        expect(ran.status == 2 or Tried.told is None or b'nothing is audited' in ran.err, 'not said', ran)

    def signature(self):
        chunk, name = self.rng.randrange(12), self.rng.choice(NAMES)
        def expected(*registers):
            r = registers[NAMES.index(name)]
            whole(r)
            given(model.root_hash(r))
            signature = bytes(r.signatures[32 + 64 * chunk:96 + 64 * chunk]) if chunk < r.s else bytes(64)
            if signature == bytes(64):
                raise Several([None])
            return signature.hex().encode() + b'\n'
        self.command(['signature', self.folder, name, str(chunk)], expected)

    def verify(self):
        """With a command that takes the signatures of even chunks alone."""
        def expected(*registers):
            lines, refusals, good = b'', [], True
            for name, r in zip(NAMES, registers):
                answer = copy_model.audit_copy(r) if is_copy(r) else model.audit(r)
                if answer[0] == 'refused':
                    refusals.append(answer[1:])
                    continue
                own = [] if is_copy(r) else [k for k in range(r.s) if any(r.signatures[32 + 64 * k:96 + 64 * k])]
                good &= own[-1:] == [r.n - 1] and all(k % 2 == 0 for k in own)
            if refusals or not good:
                raise Several(refusals or [None])
        self.command(['verify', self.folder, '--with', 'test $(($4 % 2)) = 0'], expected)

    def sheet(self):
        def expected(*registers):
            for r in registers:
                given((copy_model.audit_copy(r) if is_copy(r) else model.audit(r)) + (None,))
        self.command(['sheet', self.folder] + self.rng.choice([[], ['--html']]), expected)

    def missing(self):
        start, name = self.rng.choice([0, self.rng.randrange(40)]), self.rng.choice(NAMES)
        def expected(*registers):
            return b''.join(b'%d\n' % chunk for chunk in not_held(registers[NAMES.index(name)], start))
        self.command(['missing', self.folder, '--from', str(start)] + (['--metadata'] if name == 'metadata' else []), expected)

    def packet(self):
        chunk, name = self.chunk_number(), self.rng.choice(NAMES)
        def expected(*registers):
            buffer = bytearray(70000)
            length = given(model.make_packet(registers[NAMES.index(name)], chunk, buffer))
            return bytes(buffer[:length])
        ran = self.command(['packet', 'make', self.folder, str(chunk)] + (['--metadata'] if name == 'metadata' else []), expected)
        if ran.status == 0:
            self.check_packet(ran.out, chunk, registers_in(self.folder)[NAMES.index(name)])

    def check_packet(self, packet, chunk, r):
        if self.rng.random() < 0.5:
            at = self.rng.randrange(len(packet))
            packet = packet[:at] + bytes([packet[at] ^ 1 << self.rng.randrange(8)]) + packet[at + 1:]
        n, root = r.n + self.rng.choice([0, 0, 0, 1]), model.root_hash(r)[1]
        file = self.inputs.file(packet)
        def expected(*registers):
            return b'%s: chunk %d of %d, %s\n' % (file.encode(), chunk, n, plural(len(given(model.check_packet(packet, n, chunk, root))), b'byte'))
        self.command(['packet', 'check', file, '--chunks', str(n), '--number', str(chunk), '--root', root.hex()], expected)

    def compare(self, other):
        def expected(*registers):
            lines, refusals, differ, others = b'', [], False, registers_in(other)
            whole(*registers, *others)
            for name, one, two in zip(NAMES, registers, others):
                answer = model.compare(one, two)
                refusals += [answer[1:3]] if answer[0] == 'refused' else []
                differ |= answer[0] != 'equal'
                lines += b'%s: %s\n' % (name.encode(), {'equal': b'the same chunks in the same order', 'roots differ': b'the root hashes differ, and so do the chunks'}.get(answer[0], b''))
            if refusals or differ:
                raise Several(refusals or [None])
            return lines
        self.command(['compare', self.folder, other], expected)

    def needs(self):
        lengths = [self.rng.choice([0, 1, 119, 120, 65536, 65537]) if self.rng.random() < 0.1 else self.rng.randrange(3000) for _ in range(self.rng.randrange(1, 5))]
        def expected(metadata, content):
            whole(content)
            given(model.root_hash(content))
            numbers = given(needs_model.needs(content.n, content.size, lengths))
            lines = b''.join(b'content.%s %d bytes\n' % (kind.encode(), size) for kind, size in zip(KINDS, numbers[:4]))
            return lines + b'content: %d compression runs: %d for leaves, %d for parents, %d for the root hash\n' % (numbers[7], *numbers[4:7])
        self.command(['needs', self.folder, '--lengths', ','.join(map(str, lengths))], expected)

    def owed(self):
        def expected(*registers):
            roots = [(r, name, given(model.root_hash(r))) for name, r in zip(NAMES, registers) if not is_copy(r)]
            return b''.join(b'%s %s\n' % (name.encode(), root.hex().encode()) for r, name, root in roots if r.s < r.n)
        self.command(['sign', self.folder], expected)

    # ---- writing ----
    def add(self):
        pieces = self.inputs.pieces()
        words = [word for path, file, _ in pieces for word in ('--as', path, file)]
        def first():
            refusals = []
            for path, _, chunk in pieces:
                answer = records.write_node(records.Node(os.fsencode(path), None), bytearray(4096))
                refusals += [answer[1:]] if answer[0] == 'refused' else []
                refusals += [(7, None)] if len(chunk) > 65536 else []
            if len({path for path, *_ in pieces}) < len(pieces):
                raise Unreadable
            if refusals:
                raise Several(refusals)
        def expected(metadata, content):
            chunks, set_of_records, start = [chunk for *_, chunk in pieces], [], content.size
            if metadata.n == 0:
                set_of_records.append(records.header_bytes(bytes(32)))
            for k, (path, file, chunk) in enumerate(pieces):
                stat = records.Stat(mode=os.stat(file).st_mode, size=len(chunk), blocks=1, offset=content.n + k, byte_offset=start)
                buffer = bytearray(4096)
                length = given(records.write_node(records.Node(os.fsencode(path), stat), buffer))
                set_of_records.append(bytes(buffer[:length]))
                start += len(chunk)
            content, content_root = appended(content, chunks)
            metadata, metadata_root = appended(metadata, set_of_records)
            return b'metadata %s\ncontent %s\n' % (metadata_root.hex().encode(), content_root.hex().encode()), (metadata, content)
        self.command(['add', self.folder, *words], expected, writes=True, first=first)

    def sign(self):
        which = self.rng.choice([NAMES, NAMES, NAMES, NAMES[:1], NAMES[1:]])
        signatures = {name: self.rng.randbytes(64) for name in which}
        words = [word for name in which for word in ('--' + name, self.inputs.file(signatures[name]))]
        def expected(*registers):
            for r in registers:
                if not is_copy(r):
                    given(model.root_hash(r))
            after = []
            for name, r in zip(NAMES, registers):
                if name in signatures:
                    r = with_room(r, 0, 0, 1)
                    given(model.store_signature(r, signatures[name]))
                after.append(r)
            return b'', after
        self.command(['sign', self.folder, *words], expected, writes=True)

    def release(self):
        chunks = [self.chunk_number() for _ in range(self.rng.choice([1, 1, 2, 5]))]
        paths = [self.inputs.path() for _ in range(self.rng.choice([0, 0, 1, 2, 3]))]
        def expected(metadata, content):
            named = [chunk_named(metadata, content, path) for path in paths]
            content = copy.deepcopy(content)
            for chunk in chunks + named:
                given(model.release(content, chunk))
            return b'', (metadata, content)
        self.command(['release', self.folder, *map(str, chunks), *paths], expected, writes=True)


    def take(self, office):
        """A packet of another archive is taken in, now and then a damaged one, as another chunk or under another root hash."""
        name, chunk = self.rng.choice(NAMES), self.rng.randrange(12)
        try:
            r = registers_in(office)[NAMES.index(name)]
        except Unreadable:
            return
        buffer = bytearray(70000)
        made = model.make_packet(r, chunk, buffer)
        packet, root = bytes(buffer[:made[1]]) if made[0] == 'done' else b'', model.root_hash(r)[1]
        if packet and self.rng.random() < 0.1:
            at = self.rng.randrange(len(packet))
            packet = packet[:at] + bytes([packet[at] ^ 1 << self.rng.randrange(8)]) + packet[at + 1:]
        chunk += self.rng.random() < 0.05
        own = not isinstance(root, bytes) or self.rng.random() < 0.2
        words = ['packet', 'take', self.folder, self.inputs.file(packet), '--number', str(chunk)] + (['--metadata'] if name == 'metadata' else [])
        def expected(*registers):
            registers = [copy.deepcopy(r) for r in registers]
            c = registers[NAMES.index(name)]
            given(copy_model.take_in(copy_model.lent_as_copy(c), packet, chunk, given(model.root_hash(c)) if own else root))
            return b'', registers
        self.command(words + ([] if own else ['--root', root.hex()]), expected, writes=True)


class Several(Exception):
    """args: a list of refusals, or of None where the status alone is known."""


def plural(count, word):
    return b'%d %s%s' % (count, word, b'' if count == 1 else b's')


def shown_counts(r):
    if is_copy(r):
        return b'a partial copy of %s, %s' % (plural(r.n, b'chunk'), plural(r.size, b'byte'))
    return b'%s, %s, %s%s' % (plural(r.n, b'chunk'), plural(r.size, b'byte'), plural(r.s, b'signature'), b', one is owed' if r.s < r.n else b'')


def shown_page(folder):
    """What is said of the page in a folder, which may be damaged."""
    found = under(folder).get(PAGE)
    first = b'The page of the format, as sleep-archive %s has it.\n' % version().encode()
    if found is None:
        return b'none; a folder made by `new` or `copy` without --no-page has it as README.txt'
    if found.startswith(first):
        return b'README.txt, of version %s%s' % (version().encode(), b'' if found == page() else b", with other words than that version's")
    other = re.match(rb'The page of the format, as sleep-archive ([A-Za-z0-9.-]+) has it\.\n', found)
    return b'README.txt, of version ' + other[1] if other else b'README.txt is another file, and no page of this program'


def shown_root(r):
    answer = model.root_hash(r)
    return b', root hash %s' % answer[1].hex().encode() if answer[0] == 'done' else b', and not all its roots are known'


def not_held(r, start):
    found = []
    while True:
        chunk = given(model.first_not_held(r, start))
        if chunk is None:
            return found
        found.append(chunk)
        start = chunk + 1


def list_line(node, n, missing, form, record):
    stat = node.stat or records.Stat()
    held = '-' if stat.offset is None or stat.offset >= n else 'no' if stat.offset in missing else 'held'
    if form == '-0':
        return node.path + b'\0'
    if form == '--json':
        return json.dumps({'record': record, 'name': node.path.decode(), 'name_hex': node.path.hex(), 'chunk': stat.offset, 'chunks': stat.blocks, 'size': stat.size,
                           'held': None if held == '-' else held, 'mode': stat.mode, 'mtime': stat.mtime, 'time': None}).encode()
    shown = ['-' if number is None else str(number) for number in (stat.offset, stat.size, stat.blocks)]
    line = b'%7s %7s %-4s ' % (shown[0].encode(), shown[1].encode(), held.encode())
    if form == '--long':
        line = b'%6d %6o %5s %s%-20s ' % (record, stat.mode, shown[2].encode(), line, b'-')
    return line + node.path + b'\n'


def is_meant(word, path):
    """Whether a path, or a folder above it, is the word as it stands or as a pattern, as the help says it."""
    word = os.fsencode(word).rstrip(b'/')
    above = [path[:at] for at in range(len(path)) if path[at:at + 1] == b'/'] + [path]
    pattern = b''.join(b'.*' if part == b'**' else b'[^/]*' if part == b'*' else b'[^/][\x80-\xbf]*' if part == b'?' else part if part.startswith(b'[') else re.escape(part)
                       for part in re.findall(rb'\*\*|\*|\?|\[[a-z0-9-]+\]|.', word))
    return any(one == word or re.fullmatch(pattern, one, re.S) for one in above)


def names_of(metadata, below=None):
    """The records that stand for the names, of the records below a number: refused as finding is that goes down to the first."""
    given(records.read_record(metadata, 0) if metadata.n else model.root_hash(metadata))
    found = {}
    for chunk in reversed(range(1, metadata.n)):
        node = given(records.read_record(metadata, chunk))
        if below is None or chunk < below:
            found.setdefault(node.path, (chunk, node.stat or records.Stat()))
    return found


def first_checks(content):
    """The checks that every call makes; the roots of a copy need not be known."""
    answer = model.root_hash(content)
    if answer[:2] != ('refused', 20):
        given(answer)


def differs(one, content, other, others):
    """How two pieces of one name differ: by the entries of their leaves, in the order of their chunks."""
    runs = [range(stat.offset, stat.offset + (1 if stat.blocks is None else stat.blocks)) if stat.offset is not None else range(0) for _, stat in (one, other)]
    if not all(len(run) and run[-1] < r.n for run, r in zip(runs, (content, others))):
        return b'unknown'
    if len(runs[0]) != len(runs[1]):
        return b'changed'
    for first, second in zip(*runs):
        leaves = [model.stored_leaf(content, first), model.stored_leaf(others, second)]
        if 'refused' in (leaves[0][0], leaves[1][0]):
            return b'unknown'
        if leaves[0] != leaves[1]:
            return b'changed'
    return None


def chunk_named(metadata, content, path):
    found = given(records.find(metadata, os.fsencode(path)))
    if found is None:
        raise Several([None])
    stat = given(records.read_record(metadata, found)).stat or records.Stat()
    if stat.offset is None:
        raise Several([None])
    place = given(model.place_lookup(content, stat.offset))
    if (stat.byte_offset, stat.size) != place:
        raise Several([None])
    return stat.offset


def appended(r, chunks):
    r = with_room(r, len(chunks), sum(map(len, chunks)))
    return r, given(model.append_list(r, list(map(len, chunks)), b''.join(chunks)))


class Inputs:
    """Files to hand to commands."""

    def __init__(self, rng, folder):
        self.rng, self.folder, self.count = rng, fresh(folder), 0

    def file(self, content):
        self.count += 1
        path = os.path.join(self.folder, str(self.count % 400))
        with open(path, 'wb') as file:
            file.write(content)
        return path

    def path(self):
        return self.rng.choice(['/coat/sleeve', '/coat/collar', '/x', '/' + 'y' * 254, '/caf\u00e9', '/other/%d' % self.rng.randrange(9)])

    def pieces(self):
        """Names, files and their chunks, now and then out of bounds."""
        pieces, twice = [], self.rng.random() < 0.05
        for _ in range(self.rng.choice([1, 2, 3, 9])):
            size = self.rng.choice([0, 1, self.rng.randrange(200), self.rng.randrange(9000), 65536] + [65537] * (self.rng.random() < 0.05))
            chunk = self.rng.randbytes(size) if self.rng.random() < 0.9 else bytes(size)
            path = self.path() if self.rng.random() < 0.97 else self.rng.choice(['coat', '/' * 256, 'x/y'])
            while not twice and path in [other for other, *_ in pieces]:
                path = self.path()
            pieces.append((path, self.file(chunk), chunk))
        return pieces


READING = ['status', 'audit', 'root', 'label', 'get', 'get_named', 'list', 'missing', 'packet', 'needs', 'owed', 'signature', 'verify', 'sheet']
WRITING = ['add', 'sign', 'release']


def damage(rng, folder, other):
    """One file made another, as it may go."""
    path = os.path.join(folder, rng.choice(sorted(os.listdir(folder))))
    with open(path, 'rb') as file:
        content = bytearray(file.read())
    kind = rng.choice(['byte', 'byte', 'byte', 'header', 'cut', 'cut', 'longer', 'exchanged', 'gone', 'empty'])
    if kind == 'byte' and content:
        content[rng.randrange(len(content))] ^= 1 << rng.randrange(8)
    elif kind == 'header' and content:
        content[rng.randrange(min(32, len(content)))] ^= 1 << rng.randrange(8)
    elif kind == 'cut':
        content = content[:max(0, len(content) - rng.choice([1, 40, 64, 80, 3328, rng.randrange(200)]))]
    elif kind == 'longer':
        content += bytes(rng.choice([1, 40, 64, 80, 3328, rng.randrange(200)]))
    elif kind == 'exchanged':
        path = os.path.join(folder, rng.choice(FILES))
        shutil.copy(os.path.join(other, rng.choice(sorted(set(os.listdir(other)) & set(FILES)))), path)
        return
    elif kind == 'gone':
        os.remove(path)
        return
    elif kind == 'empty':
        content = b''
    with open(path, 'wb') as file:
        file.write(content)


def made(folder, words, counts):
    """A folder of copies, for these counts and sizes; of no numbers an empty register."""
    shutil.rmtree(folder, ignore_errors=True)
    expect(run('copy', folder, *words).status == 0, 'no copy is made', words)
    registers = []
    for count in counts:
        if count is None:
            registers.append(model.register_of([]))
        else:
            registers.append(copy_model.Copy(*map(bytearray, copy_model.copy_sizes(*count)), *count))
            given(copy_model.make_copy(registers[-1]) + (None,))
    expect(under(folder) == dict(as_files(registers), **{PAGE: page()}), 'a new copy is another', words)


def copies(rng, inputs, archive, spoilt):
    """A copy of an archive, which takes in packets; damaged; and packets taken in by the archive itself."""
    part = os.path.join(ROOM, 'part')
    if rng.random() < 0.3:
        made(part, ['--content', '13,23'], [None, (13, 23)])
        made(part, ['--content', '1,5000', '--metadata', '0,0'], [(0, 0), (1, 5000)])
    made(part, ['--of', archive], [(r.n, r.size) for r in registers_in(archive)])
    copied = Tried(rng, part, inputs)
    for _ in range(rng.randrange(20)):
        copied.take(archive)
        getattr(copied, rng.choice(READING + ['release']))()
    for name in READING + WRITING:
        getattr(copied, name)()
    copied.compare(archive)
    copied.diff(archive)
    for _ in range(2):
        lay(spoilt, under(part))
        damage(rng, spoilt, rng.choice([archive, part]))
        tried = Tried(rng, spoilt, inputs)
        for name in rng.sample(READING, 5) + WRITING:
            getattr(tried, name)()
        tried.take(archive)
    lay(spoilt, under(archive))
    back = Tried(rng, spoilt, inputs)
    for _ in range(4):
        back.release()
        back.take(archive)


def main(rounds, seed):
    rng = random.Random(seed)
    fresh(ROOM)
    inputs = Inputs(rng, os.path.join(ROOM, 'inputs'))
    archive, spoilt, before = (os.path.join(ROOM, name) for name in ('archive', 'spoilt', 'before'))
    for _ in range(rounds):
        shutil.rmtree(archive, ignore_errors=True)
        expect(run('new', archive).status == 0, 'no new archive')
        expect(under(archive) == dict(as_files([model.register_of([])] * 2), **{PAGE: page()}), 'a new archive is another')
        grown = Tried(rng, archive, inputs)
        for _ in range(rng.randrange(1, 8)):
            lay(before, under(archive))
            for name in ('add', 'sign') + ('release',) * (rng.random() < 0.4):
                getattr(grown, name)()
            getattr(grown, rng.choice(READING))()
        for name in READING:
            getattr(grown, name)()
        grown.compare(rng.choice([archive, before]))
        for other in (archive, before):
            grown.diff(other)
        copies(rng, inputs, archive, spoilt)
        for _ in range(4):
            lay(spoilt, under(archive))
            for _ in range(rng.choice([1, 1, 2])):
                damage(rng, spoilt, before)
            tried = Tried(rng, spoilt, inputs)
            for name in rng.sample(READING, 5) + WRITING:
                getattr(tried, name)()
            tried.compare(archive)
            tried.diff(archive)
    total = sum(Tried.counts.values())
    by_status = [sum(count for (_, status), count in Tried.counts.items() if status == wanted) for wanted in (0, 1, 2)]
    expect(Tried.marked or rounds < 5, 'no record was marked')
    print('answers: %d commands on random and damaged archives as the model says: %d done, %d refused or different, %d on no archive' % (total, *by_status))


if __name__ == '__main__':
    main(*[int(word) for word in sys.argv[1:3]] + [25, 1][len(sys.argv[1:3]):])
