"""Archives held against paper: root hashes that were written down, sheets, and signatures that a command of the user's checks.

usage: python3 tests/tool/paper.py
"""

import os
import random
import shutil
import subprocess
import xml.etree.ElementTree as tree

from program import KINDS, PROGRAM, TARGET, done, environment, expect, fresh, run, under, version
import sleep_model as model

ROOM = os.path.join(TARGET, 'tests', 'tool', 'paper')
COATS = os.path.join(ROOM, 'coats')
NAMES = ('metadata', 'content')


def place(name):
    return os.path.join(ROOM, name)


def refused(words, says, status=1):
    before = under(ROOM)
    ran = run(*words, cwd=ROOM)
    expect(ran.status == status and says.encode() in ran.err, 'expected "%s": %r' % (says, words), ran)
    expect(under(ROOM) == before, 'something changed: %r' % (words,), ran)
    return ran


def register(name, archive=COATS):
    """A register of an archive whose numbers are those of its files' lengths."""
    images = [under(archive)[name + '.' + kind] for kind in KINDS]
    n = 0 if len(images[0]) == 32 else ((len(images[0]) - 32) // 40 + 1) // 2
    return model.Register(*map(bytearray, images), n, (len(images[1]) - 32) // 64, len(images[3]))


def grown(rng):
    """Sets of several sizes, each signed by a signature that stands for its root hash; the last signature is owed."""
    shutil.rmtree(COATS, ignore_errors=True)
    with open(place('key'), 'wb') as file:
        file.write(rng.randbytes(32))
    done('new', COATS, '--content-key', place('key'))
    signing = 'echo "signed $1 $2" | sha512sum | cut -c 1-128 | while read digits; do printf "$(echo "$digits" | sed "s/../\\\\\\\\x&/g")"; done'
    for count in (3, 1, 5, 4):
        words = []
        for k in range(count):
            with open(place('piece%d' % k), 'wb') as file:
                file.write(rng.randbytes(rng.randrange(300)))
            words += ['--as', '/%d/%d' % (count, k), place('piece%d' % k)]
        done('add', COATS, *words)
        if count != 4:
            done('sign', COATS, '--with', 'bash -c \'%s\' sh "$1" "$2"' % signing.replace("'", "'\\''"))
    return 'test "$3" = "$(echo "signed $1 $2" | sha512sum | cut -c 1-128)"'


def held_to_roots():
    """Every root hash that there ever was is known again; any other is told."""
    for name in NAMES:
        r = register(name)
        for m in range(r.n + 1):
            root = model.old_root(r, m)[1].hex()
            ran = done('audit', COATS, name, '--root', root, '--first', str(m))
            expect(ran.out.endswith(b'%s: the root hash of the first %d chunk%s is the one given\n' % (name.encode(), m, b'' if m == 1 else b's')), 'other words', ran)
        for digits in (root, root.upper(), ' '.join(root[at:at + 4] for at in range(0, 64, 4)), '\n  %s\n%s ' % (root[:32], root[32:])):
            ran = done('audit', COATS, name, '--root', digits)
            expect(ran.out.splitlines()[-1] == name.encode() + b': the root hash is the one given', 'other words', ran)
        for at in range(0, 64, 5):
            other = root[:at] + '%x' % (int(root[at], 16) ^ 1) + root[at + 1:]
            ran = refused(['audit', COATS, name, '--root', other], '%s: the root hash is another than the one given: %s' % (name, root))
            expect(ran.out.startswith(name.encode() + b': accepted, ') and ran.out.count(b'\n') == 1, 'not audited', ran)
        refused(['audit', COATS, name, '--root', root, '--first', str(r.n - 1)], 'the root hash of the first %d chunks is another' % (r.n - 1))
        refused(['audit', COATS, name, '--root', root, '--first', str(r.n + 1)], 'refused with 9')
    quiet = done('audit', COATS, 'content', '--root', root, '-q')
    expect(not quiet.out and not quiet.err, 'not quiet', quiet)
    expect(not refused(['audit', COATS, 'content', '--root', 64 * '0', '-q'], 'is another than').out, 'not quiet')


def damaged():
    """What is not accepted has no root hash to be held against, no sheet, and no signatures that are checked."""
    shutil.copytree(COATS, place('spoilt'))
    with open(place('spoilt/content.data'), 'r+b') as file:
        byte = file.read(1)
        file.seek(0)
        file.write(bytes([byte[0] ^ 1]))
    root = model.root_hash(register('content'))[1].hex()
    ran = refused(['audit', place('spoilt'), 'content', '--root', root], 'not accepted: content')
    expect(b'the one given' not in ran.out, 'held against a root hash', ran)
    expect(not refused(['sheet', place('spoilt')], 'content: refused with 10').out, 'a sheet of damage')
    sheet = done('sheet', place('spoilt'), '--no-audit', '--date', '2000-01-01').out
    expect(b'NOT AUDITED' in sheet and sheet.count(b' '.join(root[at:at + 4].encode() for at in range(0, 32, 4))) == 2, 'not said', sheet)
    ran = refused(['verify', place('spoilt'), 'content', '--with', 'touch %s' % place('started')], 'not verified: content')
    expect(not os.path.exists(place('started')) and b'content: refused with 10' in ran.out, 'a signature of damage is checked', ran)
    shutil.rmtree(place('spoilt'))


def copies():
    """A copy without its roots can't be held against paper, and says so; with one packet it can."""
    done('copy', place('room'), '--of', COATS)
    root = model.root_hash(register('content'))[1].hex()
    refused(['audit', place('room'), 'content', '--root', root], 'refused with 20')
    done('sheet', place('room'))
    done('packet', 'make', COATS, '3', '-o', place('packet'))
    done('packet', 'take', place('room'), place('packet'), '--number', '3', '--root', root)
    expect(done('audit', place('room'), 'content', '--root', root).out.endswith(b'the one given\n'), 'not held')
    sheet = done('sheet', place('room')).out
    expect(b'held        1 of %d: chunk 3\n' % register('content').n in sheet and b'a partial copy has none' in sheet, 'another sheet', sheet)
    expect(b'not all roots are known in this copy' in sheet, 'the roots of the metadata are not known', sheet)
    refused(['verify', place('room'), '--with', 'true'], 'not verified: metadata, content')
    refused(['signature', place('room'), 'content', '0'], 'a partial copy, which has no signatures file')
    shutil.rmtree(place('room'))


def grouped(digits):
    return [' '.join(digits[at:at + 4] for at in range(half, half + 32, 4)) for half in (0, 32)]


def roots_of(r):
    """The roots as the model has them: chunks, bytes and hash."""
    found = []
    for index in model.roots(r.n):
        at = 32 + 40 * index
        count = 2 ** model.depth(index)
        found.append((index + 1 - count) // 2)
        found[-1] = (found[-1], count, int.from_bytes(r.tree[at + 32:at + 40], 'big'), r.tree[at:at + 32].hex())
    return found


def sheets():
    """A sheet has what the model finds in the files; the command on it, typed as it stands, holds an archive to it; the same day gives the same page."""
    done('release', COATS, '2', '7', '8')
    text = done('sheet', COATS, '--date', '2026-11-17').out.decode()
    expect(text == done('sheet', '.', '--date', '2026-11-17', cwd=COATS).out.decode() != done('sheet', COATS, '--date', '2026-11-18').out.decode(), 'not repeatable')
    expect(text.startswith('Archive coats\nSheet of 2026-11-17, by sleep-archive %s\n' % version()), 'another head', text)
    expect(max(map(len, text.splitlines())) <= 80 and text.isascii(), 'lines that do not fit', text)
    flat = ' '.join(text.split())
    html = page_of(done('sheet', COATS, '--html', '--date', '2026-11-17').out)
    for name, released in (('content', [2, 7, 8]), ('metadata', [])):
        r = register(name)
        root = model.root_hash(r)[1].hex()
        own = sum(bytes(r.signatures[32 + 64 * k:96 + 64 * k]) != bytes(64) for k in range(r.s))
        said = [' '.join(grouped(root)), '%d stored, %d of them not zeros; that of chunk %d is owed' % (r.s, own, r.n - 1)]
        said += ['%s.%s %d bytes' % (name, kind, len(getattr(r, kind))) for kind in KINDS]
        said += ['chunks 0 to 1, chunks 3 to 6, chunks 9 to 12' if released else 'held all']
        said += ['%s, %d byte%s' % (run_of(first, count), size, '' if size == 1 else 's') for first, count, size, _ in roots_of(r)]
        for words in said:
            expect(words in flat, 'not on the sheet: ' + words, text)
        for words in said[:7]:
            expect(words in html['words'], 'not on the page: ' + words, html['words'])
        drawn(html, name, r, released)
    with open(place('key'), 'rb') as file:
        expect(' '.join(grouped(file.read().hex())) in flat and 'public key none is kept' in flat, 'no public key', text)
    typed_again(text)


def run_of(first, count):
    return 'chunk %d' % first if count == 1 else 'chunks %d to %d' % (first, first + count - 1)


def typed_again(text):
    """The commands of the sheet, typed on the archive, on one that grew, and on another."""
    lines, commands = text.splitlines(), []
    for at, line in enumerate(lines):
        if line.startswith('    sleep-archive audit '):
            commands.append('\n'.join(lines[at:at + 3]))
    expect(len(commands) == 2, 'no commands', text)
    paths = os.path.dirname(PROGRAM) + os.pathsep + os.environ['PATH']
    typed = lambda: [subprocess.run(['sh', '-c', line], cwd=ROOM, env=dict(environment(), PATH=paths), capture_output=True).returncode for line in commands]
    expect(typed() == [0, 0], 'the archive is not held to its sheet', commands)
    before = under(COATS)
    done('sign', COATS, '--with', 'head -c 64 /dev/urandom')
    done('add', COATS, '--as', '/more', place('key'))
    expect(typed() == [0, 0], 'an archive that grew is not held to its sheet', commands)
    os.rename(COATS, place('first'))
    done('new', COATS)
    done('add', COATS, *[word for k in range(13) for word in ('--as', '/%d' % k, place('key'))])
    expect(typed() == [1, 1], 'another archive is held to the sheet', commands)
    shutil.rmtree(COATS)
    os.rename(place('first'), COATS)
    for name, content in before.items():
        with open(os.path.join(COATS, name), 'wb') as file:
            file.write(content)


SVG = '{http://www.w3.org/2000/svg}'


def page_of(page):
    """The page as a browser has it: well formed, by itself, and without scripts."""
    parsed = tree.fromstring(page.decode())
    names = {element.tag for element in parsed.iter()}
    expect(names <= {'html', 'head', 'meta', 'title', 'style', 'body', 'h1', 'h2', 'p', 'section', 'table', 'tr', 'th', 'td', 'span', 'br', 'pre',
                     *(SVG + name for name in ('svg', 'defs', 'pattern', 'path', 'text', 'rect'))}, 'other elements', names)
    attributes = {name for element in parsed.iter() for name in element.attrib}
    expect(not {name for name in attributes if name.startswith('on') or name in ('href', 'src', 'style')}, 'a page that reaches out', attributes)
    expect(b'http' not in page.replace(b'http://www.w3.org/2000/svg', b'').replace(b'http-equiv', b'') and b'@import' not in page, 'a page that reaches out')
    words = ' '.join(' '.join(parsed.itertext()).split())
    return {'words': words, 'sections': dict(zip(('content', 'metadata'), parsed.iter('section')))}


def drawn(html, name, r, released):
    """A triangle for each root, and below it the chunks in their order, each field held or not."""
    svg = html['sections'][name].find(SVG + 'svg')
    roots = roots_of(r)
    triangles = [path for path in svg.findall(SVG + 'path')]
    expect(len(triangles) == len(roots), 'other roots are drawn', name, len(triangles))
    numbers = [text.text for text in svg.findall(SVG + 'text')][:len(roots)]
    expect(numbers == [str(k + 1) for k in range(len(roots))], 'other numbers', numbers)
    fields = [rect for rect in svg.findall(SVG + 'rect') if rect.get('height') == '16']
    expect(len(fields) == r.n, 'other fields than chunks', name, len(fields))
    places = [float(rect.get('x')) for rect in fields]
    expect(places == sorted(places), 'out of their order', places)
    gone = [k for k, rect in enumerate(fields) if rect.get('fill') == '#fff']
    expect(gone == released and all(rect.get('fill') in ('#fff', '#444') for rect in fields), 'others are shown as released', name, gone)


def odd_names():
    """A folder of any name has a sheet, on which nothing of the name is obeyed."""
    for name in ('<b>&"\'', "it's ours", 'a\x1b[2Jb'):
        folder = place(name)
        shutil.copytree(COATS, folder)
        page = done('sheet', folder, '--html').out
        page_of(page)
        text = done('sheet', folder, '--date', '2026-11-17').out
        expect(b'\x1b' not in page + text and b'<b>' not in page, 'obeyed', name)
        if '\x1b' not in name:
            typed_once(text.decode())
        shutil.rmtree(folder)


def typed_once(text):
    lines = text.splitlines()
    at = next(k for k, line in enumerate(lines) if line.startswith('    sleep-archive audit '))
    paths = os.path.dirname(PROGRAM) + os.pathsep + os.environ['PATH']
    ran = subprocess.run(['sh', '-c', '\n'.join(lines[at:at + 3])], cwd=ROOM, env=dict(environment(), PATH=paths), capture_output=True)
    expect(ran.returncode == 0, 'the command on the sheet is another', lines[at:at + 3], ran)


def signatures(check):
    """Each signature that is not zeros goes to the command with its root hash, and what stands in the way of a whole chain is told."""
    log = place('log')
    command = 'echo "$*" >> %s; head -c 96 | od -An -tx1 | tr -d " \\n" >> %s; echo >> %s; echo noise; %s' % (log, log, log, check)
    ran = refused(['verify', COATS, '--with', 'exit 0'], 'coats: not verified: metadata, content')
    expect(b'content: the signature of chunk 12, the last, is owed' in ran.out, 'the owed one is not said', ran)
    before = under(COATS)
    ran = run('verify', COATS, '--with', command)
    expect(ran.status == 1 and under(COATS) == before and b'noise' not in ran.out, 'another status', ran)
    expected = []
    for name in NAMES:
        r = register(name)
        own = [k for k in range(r.s) if any(r.signatures[32 + 64 * k:96 + 64 * k])]
        expect(len(own) == 3, 'other signatures', own)
        for k in own:
            root, signature = model.old_root(r, k + 1)[1].hex(), bytes(r.signatures[32 + 64 * k:96 + 64 * k]).hex()
            expected += ['%s %s %s %d' % (name, root, signature, k), root + signature]
            expect(done('signature', COATS, name, str(k)).out.decode() == signature + '\n', 'another signature')
            expect(done('signature', COATS, name, str(k), '--raw').out.hex() == signature, 'another signature')
        said = b'%s: 3 signatures checked, 3 good; the last good one reaches up to chunk %d, the first %d of %d chunks\n' % (name.encode(), own[-1], own[-1] + 1, r.n)
        expect(said in ran.out, 'other words', ran)
        refused(['signature', COATS, name, str(own[0] - 1)], 'has no signature of its own, but zeros; the next is that of chunk %d' % own[0])
        refused(['signature', COATS, name, str(r.n - 1)], 'the signature of chunk %d is owed' % (r.n - 1))
        refused(['signature', COATS, name, str(r.n)], 'there is no chunk %d' % r.n)
    with open(log) as file:
        expect(file.read().splitlines() == expected, 'the command was told otherwise', expected)


def chains(check):
    """Signed whole, with one bad signature, with zeros at the end, by a command that can't be run, and without any."""
    sign = ['sign', COATS, '--metadata', place('last'), '--content', place('last')]
    with open(place('last'), 'wb') as file:
        file.write(bytes(64))
    before = under(COATS)
    done(*sign)
    ran = refused(['verify', COATS, '--with', check], 'not verified: metadata, content')
    expect(b'content: the signature of chunk 12, the last, is zeros' in ran.out, 'zeros pass', ran)
    shutil.rmtree(COATS)
    os.makedirs(COATS)
    for name, content in before.items():
        with open(os.path.join(COATS, name), 'wb') as file:
            file.write(content)
    with open(place('last'), 'wb') as file:
        file.write(b'x' * 64)
    done(*sign)
    either = '%s || test "$3" = %s' % (check, (b'x' * 64).hex())
    ran = done('verify', COATS, '--with', either)
    expect(ran.out.endswith(b'content: 4 signatures checked, 4 good; the last good one reaches up to chunk 12, the first 13 of 13 chunks\n'), 'other words', ran)
    quiet = done('verify', COATS, '--with', either, '-q')
    expect(not quiet.out and not quiet.err, 'not quiet', quiet)
    ran = refused(['verify', COATS, 'content', '--with', check], 'not verified: content')
    expect(b'content: the signature of chunk 12 is not good\n' in ran.out and b'4 signatures checked, 3 good; the last good one reaches up to chunk 8' in ran.out, 'other words', ran)
    ran = refused(['verify', COATS, 'content', '--with', 'test "$4" != 3'], 'not verified: content')
    expect(b'the signature of chunk 3 is not good\n' in ran.out and b'3 good; the last good one reaches up to chunk 12' in ran.out, 'one in the middle is passed over', ran)
    ran = refused(['verify', COATS, 'content', '--with', 'kill -9 $$'], 'not verified: content')
    expect(b'4 signatures checked, 0 good\n' in ran.out, 'a killed command is good', ran)
    refused(['verify', COATS, '--with', place('no such command')], "it can't be run", 2)
    done('new', place('fresh'))
    ran = refused(['verify', place('fresh'), '--with', 'true'], 'not verified: metadata, content')
    expect(b'there are no chunks, and no signature' in ran.out, 'nothing said', ran)


def with_keys():
    """With openssl's Ed25519, as SHELL.md has it; another key's signatures fail."""
    if shutil.which('openssl') is None:
        print('paper: openssl is not there, so no keys')
        return
    for name in ('maker', 'other'):
        subprocess.run(['openssl', 'genpkey', '-algorithm', 'ed25519', '-out', place(name + '.pem')], check=True)
        subprocess.run(['openssl', 'pkey', '-in', place(name + '.pem'), '-pubout', '-out', place(name + '.pub')], check=True)
    done('new', place('keyed'))
    done('add', place('keyed'), '--as', '/a', place('key'))
    done('sign', place('keyed'), '--with', 'cat > root; openssl pkeyutl -sign -rawin -inkey maker.pem -in root', cwd=ROOM)
    checking = 'head -c 32 > root; cat > signature; openssl pkeyutl -verify -rawin -pubin -inkey %s.pub -in root -sigfile signature'
    done('verify', place('keyed'), '--with', checking % 'maker', cwd=ROOM)
    ran = run('verify', place('keyed'), '--with', checking % 'other', cwd=ROOM)
    expect(ran.status == 1 and b'1 signature checked, 0 good\n' in ran.out, "another's signature is good", ran)


def main():
    fresh(ROOM)
    check = grown(random.Random(5))
    held_to_roots()
    damaged()
    copies()
    signatures(check)
    sheets()
    odd_names()
    chains(check)
    with_keys()
    print('paper: root hashes of every state known again and others told; sheets as the model has them, their commands typed again, the page read as a browser reads it; '
          'signatures handed to a command, owed, zeros and bad ones told')


if __name__ == '__main__':
    main()
