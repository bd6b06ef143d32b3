"""Wrong input, one by one: a clear message, the exit status, and nothing changed; then what a person types first, and one writer at a time.

usage: python3 tests/tool/usage.py
"""

import fcntl
import json
import os
import random
import resource
import shutil
import signal
import subprocess
import time

from program import JOURNAL, PAGE, PROGRAM, TARGET, UNSYNCED, Ran, done, environment, expect, fresh, page, run, under, version
import sleep_model as model

ROOM = os.path.join(TARGET, 'tests', 'tool', 'usage')


def write(name, content):
    with open(os.path.join(ROOM, name), 'wb') as file:
        file.write(content)


def wrong(status, says, *words, **named):
    """The command ends with this status and these words, and changes nothing."""
    before = under(ROOM)
    ran = run(*words, cwd=ROOM, **named)
    expect(ran.status == status and says.encode() in ran.err, 'expected status %d and "%s": %r' % (status, says, words), ran)
    expect(ran.err.count(b'\n') == 1 and not ran.out, 'more than one line: %r' % (words,), ran)
    expect(under(ROOM) == before, 'something changed: %r' % (words,), ran)


def wrong_words():
    wrong(2, 'a command is needed')
    wrong(2, 'no command mend', 'mend', 'coats')
    wrong(2, 'no option --first', 'get', 'coats', '0', '--first', '1')
    wrong(2, 'needs a word', 'root', 'coats', '--first')
    wrong(2, 'needs a number, not -1', 'root', 'coats', '--first=-1')
    wrong(2, 'just an archive is needed', 'status')
    wrong(2, 'just a folder is needed', 'new', 'a', 'b')
    wrong(2, 'two archives are needed', 'compare', 'coats')
    wrong(2, 'an archive and files are needed', 'add', 'coats')
    wrong(2, '--as needs a file', 'add', 'coats', 'sleeve', '--as', '/x')
    wrong(2, '--as needs a file', 'add', 'coats', '--as', '/x', '--as', '/y', 'sleeve')
    wrong(2, '/sleeve: the name of two files', 'add', 'coats', 'sleeve', '--as', '/x', 'collar', './sleeve')
    wrong(2, '/a/sleeve: the name of two files', 'needs', 'coats', '--in', '/a', 'sleeve', '--as', '/a/sleeve', 'collar')
    wrong(2, 'standard input can be given once', 'add', 'coats', '--as', '/x', '-', '--as', '/y', '-', stdin=b'1')
    wrong(2, 'metadata or content', 'root', 'coats', 'contents')
    wrong(2, 'sleeve: a chunk is meant by its number or by its name, which begins with a slash', 'get', 'coats', 'sleeve')
    wrong(2, '--help: no such file', 'add', 'coats', '--', '--help')
    wrong(2, '64 hexadecimal digits', 'packet', 'check', 'sleeve', '--chunks', '1', '--number', '0', '--root', 'abc')
    wrong(2, '--chunks, --number and --root are needed', 'packet', 'check', 'sleeve')
    wrong(2, '--key is needed', 'label', 'coats')
    wrong(2, '--of ARCHIVE is needed', 'copy', 'part')
    wrong(2, '--of ARCHIVE is needed', 'copy', 'part', '--of', 'coats', '--content', '1,2')
    wrong(2, '--of ARCHIVE is needed', 'copy', 'part', '--metadata', '1,2')
    wrong(2, '--content needs two numbers', 'copy', 'part', '--content', '13')
    wrong(2, '--number are needed', 'packet', 'take', 'coats', 'sleeve')
    wrong(2, '--in needs files behind its folder', 'add', 'coats', 'sleeve', '--in', '/q')
    wrong(2, '--in needs files behind its folder', 'needs', 'coats', 'sleeve', '--in', '/q')
    wrong(2, '--in coat: a folder of an archive begins with a slash: /coat', 'add', 'coats', '--in', 'coat', 'sleeve')
    wrong(2, '64 hexadecimal digits', 'packet', 'check', 'sleeve', '--chunks', '1', '--number', '0', '--root', 32 * '+f')
    wrong(2, '--content 0,5: 0 chunks have at most 0 bytes', 'copy', 'part', '--content', '0,5')
    wrong(2, '--content 1,100000000000: 1 chunk have at most 65536 bytes', 'copy', 'part', '--content', '1,100000000000')
    wrong(2, '--metadata 2,131073: 2 chunks', 'copy', 'part', '--content', '1,1', '--metadata', '2,131073')
    wrong(2, 'no command mend', 'help', 'mend')
    wrong(2, '--wait needs a number, not soon', 'list', 'coats', '--wait', 'soon')
    wrong(2, 'no option --without-journal', 'add', 'coats', 'sleeve', '--without-journal')
    for option in ('--without-journal', '--large-journal'):
        wrong(2, 'no option ' + option, 'sign', 'coats', option)
        wrong(2, option + ' is for reading', 'packet', 'take', 'coats', 'sleeve', '--number', '0', option)
    wrong(2, 'no option --wait', 'group', '--wait', '1')
    wrong(2, 'an archive and a command are needed', 'hold', 'coats')
    wrong(2, '--drop or --finish, and not both', 'journal', 'coats', '--drop', '--finish')
    wrong(2, 'standard input', 'group', 'sleeve')
    wrong(2, '--signer one for all: one of them', 'add', 'coats', 'sleeve', '--signer', 'cat', '--sign-with', 'cat')
    wrong(2, '--commit-every needs --signer or --sign-with', 'add', 'coats', 'sleeve', '--commit-every', '5')
    wrong(2, '--commit-every 193: 1 to 192 are needed', 'add', 'coats', 'sleeve', '--commit-every', '193', '--signer', 'cat')
    wrong(2, '--split 6: a multiple of 4 is needed, at most 65536', 'add', 'coats', 'long', '--split', '6')
    wrong(2, '--split needs a number, not 64k', 'needs', 'coats', 'long', '--split', '64k')
    wrong(2, '--cuts needs a file behind it', 'add', 'coats', 'sleeve', 'collar', '--cuts', 'lengths')
    wrong(2, '--cuts needs a file behind it', 'add', 'coats', '--cuts', 'lengths', '--cuts', 'lengths', 'sleeve')
    wrong(2, 'drawings: a folder: --cuts is for one file', 'add', 'coats', '--cuts', 'lengths', 'drawings')
    wrong(2, 'short: no list of lengths: it is no text', 'add', 'coats', '--cuts', 'short', 'sleeve')
    wrong(2, 'empty: no lengths in it', 'add', 'coats', '--cuts', 'empty', 'sleeve')
    wrong(2, 'sleeve: its cuts add up to 65537 bytes, and it has 5000 bytes', 'add', 'coats', '--cuts', 'lengths', 'sleeve')
    wrong(2, 'no option --signer', 'needs', 'coats', 'sleeve', '--signer', 'cat')
    wrong(2, 'an archive and a folder are needed', 'export', 'coats')
    wrong(2, 'sleeve: a name of an archive begins with a slash', 'export', 'coats', 'out', 'sleeve')
    wrong(2, 'no option --in', 'export', 'coats', 'out', '--in', '/coat')
    wrong(2, '--names is of pieces', 'missing', 'coats', '--names', '--from', '1')
    wrong_words_on_paper()


def wrong_words_on_paper():
    """Of the commands that hold an archive against something, list it, or say what differs."""
    root = 64 * '0'
    wrong(2, '--first is for the root hash that --root gives', 'audit', 'coats', 'content', '--first', '1')
    wrong(2, '--root needs metadata or content', 'audit', 'coats', '--root', root)
    wrong(2, '64 hexadecimal digits', 'audit', 'coats', 'content', '--root', root[1:])
    wrong(2, '64 hexadecimal digits', 'audit', 'coats', 'content', '--root', root + ' 0')
    wrong(2, '64 hexadecimal digits', 'audit', 'coats', 'content', '--root', '0x' + root[2:])
    wrong(2, '--first needs a number', 'audit', 'coats', 'content', '--root', root, '--first', 'all')
    wrong(2, '--with is needed', 'verify', 'coats')
    wrong(2, 'metadata or content', 'verify', 'coats', 'contents', '--with', 'true')
    wrong(2, 'an archive is needed', 'verify', '--with', 'true')
    wrong(2, 'nowhere: no such file', 'verify', 'nowhere', '--with', 'true')
    wrong(2, 'an archive, metadata or content, and a chunk', 'signature', 'coats', 'content')
    wrong(2, 'metadata or content', 'signature', 'coats', 'contents', '0')
    wrong(2, 'a chunk needs a number, not last', 'signature', 'coats', 'content', 'last')
    wrong(2, 'just an archive is needed', 'sheet')
    wrong(2, 'just an archive is needed', 'sheet', 'coats', 'owing')
    for date in ('today', '2026-02-30', '2026-1-1', '', '<b>', '2026-11-17 '):
        wrong(2, '--date needs a date as 2026-11-17', 'sheet', 'coats', '--date', date)
    wrong(2, 'coats/README.txt: a file of an archive; nothing is written', 'sheet', 'coats', '-o', 'coats/README.txt')
    wrong(2, 'two archives are needed, or one and --first', 'diff', 'coats')
    wrong(2, 'two archives are needed, or one and --first', 'diff', 'coats', 'owing', '--first', '1,1')
    wrong(2, 'two archives are needed, or one and --first', 'diff', 'coats', 'owing', 'gone')
    wrong(2, '--first needs two numbers', 'diff', 'coats', '--first', '1')
    wrong(2, '--first needs a number, not x', 'diff', 'coats', '--first', '1,x')
    wrong(2, 'nowhere: no such file', 'diff', 'coats', 'nowhere')
    wrong(2, 'an archive is needed', 'list')
    wrong(2, 'sleeve: a name begins with a slash', 'list', 'coats', 'sleeve')
    for words in (['--json', '-0'], ['--long', '--json'], ['-0', '--long']):
        wrong(2, '--long, --json or -0, and not two of them', 'list', 'coats', *words)
    wrong(2, '--no-page takes no word', 'new', 'a', '--no-page=1')
    wrong(2, 'no option --no-page', 'add', 'coats', 'sleeve', '--no-page')
    wrong(2, 'no command --men', 'help', '--men')
    wrong(2, 'no command --versions', '--versions')


def wrong_files():
    wrong(2, 'nowhere: no such file or directory', 'audit', 'nowhere')
    wrong(2, 'sleeve: a file, and no folder', 'audit', 'sleeve')
    wrong(2, 'drawings: no archive: metadata.tree is missing', 'audit', 'drawings')
    wrong(2, 'there is an archive already', 'new', 'coats')
    wrong(2, 'no such file or directory', 'new', 'no/such/folder')
    wrong(2, 'nofile: no such file or directory', 'add', 'coats', 'nofile')
    wrong(2, 'nofile: no such file or directory', 'add', 'coats', 'sleeve', '--cuts', 'nofile')
    wrong(2, 'nowhere: no such file or directory', 'export', 'nowhere', 'out')
    wrong(2, 'sleeve: a file, and no folder', 'export', 'coats', 'sleeve')
    wrong(2, 'coats: the archive itself', 'export', 'coats', 'coats')
    wrong(2, 'no file to add: the folder has none', 'add', 'coats', '--as', '/drawings', 'drawings')
    wrong(2, 'give it a name by --as', 'add', 'coats', '../usage/sleeve')
    wrong(2, 'give it a name by --as', 'add', 'coats', '--in', '/coat', '..')
    wrong(2, 'standard input needs a name', 'add', 'coats', '-')
    wrong(2, 'there is an archive already', 'copy', 'coats', '--content', '1,2')
    wrong(2, 'nofile: no such file or directory', 'packet', 'take', 'coats', 'nofile', '--number', '0')
    wrong(2, '64 bytes are needed, and it has more', 'sign', 'coats', '--content', 'sleeve')
    wrong(2, '32 bytes are needed, and it has 3', 'new', 'dresses', '--content-key', 'short')
    wrong(2, 'ended with exit status: 3', 'sign', 'owing', '--with', 'exit 3')
    wrong(2, '64 bytes are needed, and it gave more', 'sign', 'owing', '--with', 'yes')
    wrong(2, '64 bytes are needed, and it gave 2', 'sign', 'owing', '--with', 'echo 1')


def refused():
    wrong(1, 'long: refused with 7: a piece is longer than 65,536 bytes', 'add', 'coats', 'long')
    wrong(1, ': long: refused with 7', 'add', 'coats', 'sleeve', 'long', 'collar')
    wrong(1, 'refused with 15', 'add', 'coats', '--as', 'coat/sleeve', 'sleeve')
    wrong(1, 'refused with 15', 'add', 'coats', '--as', '/' + 255 * 'x', 'sleeve')
    wrong(1, 'refused with 15', 'add', 'coats', '--as', '', 'sleeve')
    wrong(1, 'refused with 16: a set has 1 to 256 chunks', 'add', 'coats', *[word for k in range(257) for word in ('--as', '/%d' % k, 'sleeve')])
    wrong(1, 'an archive\'s first one has a Header beside the records: at most 255 files', 'add', 'fresh', *[word for k in range(256) for word in ('--as', '/%d' % k, 'sleeve')])
    wrong(1, 'refused with 8', 'add', 'owing', 'sleeve')
    wrong(1, 'refused with 8', 'add', 'owing', 'sleeve', '--signer', 'cat')
    wrong(1, '--split SIZE stores it as chunks', 'add', 'coats', 'long', '--signer', 'cat')
    wrong(1, 'with --signer or --sign-with any number is added', 'add', 'coats', *[word for k in range(257) for word in ('--as', '/%d' % k, 'sleeve')])
    wrong(1, 'refused with 8', 'sign', 'coats', '--content', 'signature')
    wrong(1, 'refused with 9', 'get', 'coats', '3')
    wrong(1, 'no such name', 'get', 'coats', '/coat/pocket')
    wrong(1, 'refused with 9', 'root', 'coats', 'content', '--first', '4')
    wrong(1, 'refused with 17', 'label', 'coats', '--key', 'sleeve')
    wrong(1, 'refused with 7', 'group', stdin=bytes(65537))
    wrong(1, 'refused with 12', 'packet', 'check', 'sleeve', '--chunks', '3', '--number', '0', '--root', 64 * '0')
    wrong(1, 'refused with 18: a piece that is needed is not held here: it was released, or never taken in; at tree index 2, the leaf of chunk 1', 'get', 'gone', '1')
    wrong(1, 'chunk 1 of the content: refused with 18: a piece that is needed is not held here: it was released', 'release', 'gone', '0', '1')
    wrong(1, '/nosuch: there is no such name', 'release', 'coats', '/sleeve', '/nosuch')
    wrong(1, 'refused with 12', 'packet', 'take', 'gone', 'sleeve', '--number', '0')
    wrong(1, 'refused with 2', 'copy', 'part', '--content', '1048577,5')
    wrong(1, 'content: the signature of chunk 2 is owed', 'signature', 'owing', 'content', '2')
    wrong(1, 'content: chunk 0 has no signature of its own, but zeros; the next is that of chunk 2', 'signature', 'coats', 'content', '0')
    wrong(1, 'content: chunk 1 has no signature of its own, but zeros; none that follows either', 'signature', 'owing', 'content', '1', '--raw')
    wrong(1, 'content: there is no chunk 3, and no signature of one', 'signature', 'coats', 'content', '3')
    wrong(1, 'coats: metadata: --first 5,3: it has 4 chunks, and never had 5', 'diff', 'coats', '--first', '5,3')
    wrong(1, 'coats: content: --first 4,9: it has 3 chunks, and never had 9', 'diff', 'coats', '--first', '4,9')
    wrong(1, '--first 4,1: /coat/empty stands in the first 4 records, and its chunks are not among the first 1', 'diff', 'coats', '--first', '4,1')
    wrong(1, '/nosuch: there is no such name', 'list', 'coats', '/nosuch')
    wrong(1, '/: there is no such name', 'list', 'fresh', '/')


def pages():
    """The page of the format lies in a folder that `new` or `copy` makes; nobody's file is written over; and nothing depends on it."""
    place = lambda *names: os.path.join(ROOM, *names)
    told = lambda name: done('status', name, cwd=ROOM).out.splitlines()[-1].decode()
    for name, words in (('paged', ['new', 'paged']), ('paged copy', ['copy', 'paged copy', '--of', 'coats'])):
        done(*words, cwd=ROOM)
        with open(place(name, PAGE), 'rb') as file:
            expect(file.read() == page() and os.stat(file.name).st_mode & 0o777 == os.stat(place(name, 'content.tree')).st_mode & 0o777, 'another page', name)
        expect(told(name) == 'page: README.txt, of version ' + version(), 'another version', told(name))
        done(*words[:1], name + ' bare', *words[2:], '--no-page', cwd=ROOM)
        bare = under(place(name + ' bare'))
        expect(PAGE not in bare and dict(bare, **{PAGE: page()}) == under(place(name)), 'more than the page is left out', sorted(bare))
        expect(told(name + ' bare').startswith('page: none; '), 'not said', told(name + ' bare'))
    first = b'The page of the format, as sleep-archive '
    for content, words in ((b'', 'is another file, and no page of this program'), (page() + b'x', ', of version %s, with other words than that version\'s' % version()),
                           (page()[:100], ', of version %s, with other words' % version()), (first + b'1.2.3 has it.\nolder', ', of version 1.2.3'),
                           (first + b'\x1b[2J has it.\n', 'is another file'), (first + 200 * b'1', 'is another file'), (b'\0' * 100000, 'is another file')):
        with open(place('paged', PAGE), 'wb') as file:
            file.write(content)
        expect(told('paged').startswith('page: README.txt') and words in told('paged'), 'told otherwise', told('paged'))
    fresh(place('papers'))
    for content in (b'mine', page()[:-1], b''):
        with open(place('papers', PAGE), 'wb') as file:
            file.write(content)
        wrong(2, 'papers/README.txt: there is another file of that name; nothing is changed, and --no-page leaves the page of the format out', 'new', 'papers')
        wrong(2, 'there is another file of that name', 'copy', 'papers', '--of', 'coats')
    done('new', 'papers', '--no-page', cwd=ROOM)
    for name in ('paged', 'paged bare', 'paged copy', 'paged copy bare', 'papers'):
        shutil.rmtree(place(name))
    fresh(place('papers'))
    with open(place('papers', PAGE), 'wb') as file:
        file.write(page())
    done('new', 'papers', cwd=ROOM)
    shutil.rmtree(place('papers'))


def quiet():
    """-q leaves out what is said beside an answer, and of some commands the answer that the exit status is; what is wrong is said."""
    for words in (['audit', 'coats'], ['compare', 'coats', 'coats'], ['diff', 'coats', 'coats'], ['sign', 'coats'], ['sign', 'coats', '--with', 'false'], ['journal', 'coats']):
        loud, silent = done(*words, cwd=ROOM), done(*words, '-q', cwd=ROOM)
        expect((loud.out or loud.err) and not silent.out and not silent.err, 'not quiet: %r' % words, loud, silent)
    for words in (['status', 'coats'], ['list', 'coats'], ['root', 'coats'], ['get', 'coats', '0'], ['sheet', 'coats', '--date', '2026-11-17'], ['sign', 'owing']):
        expect(done(*words, '-q', cwd=ROOM).out == done(*words, cwd=ROOM).out, 'an answer is left out: %r' % words)
    wrong(1, 'not accepted: content', 'audit', 'spoilt', '-q')
    wrong(1, 'the archives are not the same', 'compare', 'coats', 'fresh', '-q')
    wrong(1, '3 missing, by names and stored hashes; nothing is audited', 'diff', 'coats', 'fresh', '-q')
    expect(done('--version').out.decode() == 'sleep-archive %s\n' % version(), 'another version')


def differences():
    """What differs by name, in any order of adding, with released pieces; other modes are no difference."""
    place = lambda *names: os.path.join(ROOM, *names)
    for name in ('one', 'two'):
        done('new', name, cwd=ROOM)
    done('add', 'one', 'sleeve', 'collar', '--as', '/gone', 'empty', '--as', '/other', 'sleeve', cwd=ROOM)
    os.chmod(place('collar'), 0o600)
    done('add', 'two', '--as', '/other', 'collar', '--as', '/\x1bnew', 'empty', '--as', '/\xff', 'empty', 'collar', 'sleeve', cwd=ROOM)
    os.chmod(place('collar'), 0o644)
    expected = [b'added   /\\x1bnew', b'added   /\xc3\xbf', b'missing /gone', b'changed /other']
    def compared(*words):
        ran = run('diff', *words, cwd=ROOM)
        expect(ran.status == 1 and ran.err == b'sleep-archive: 2 added, 1 changed, 1 missing, by names and stored hashes; nothing is audited\n', 'told otherwise', ran)
        return ran.out.splitlines()
    expect(sorted(compared('one', 'two')) == sorted(expected) and compared('one', 'two') == sorted(expected, key=lambda line: line[8:].replace(b'\\x1b', b'\x1b')), 'other differences', compared('one', 'two'))
    for name in ('one', 'two'):
        done('sign', name, '--with', 'head -c 64 /dev/urandom', cwd=ROOM)
    done('release', 'one', '/sleeve', '/gone', cwd=ROOM)
    done('release', 'two', '/sleeve', '/collar', cwd=ROOM)
    expect(sorted(compared('one', 'two')) == sorted(expected), 'released pieces are others')
    same = done('diff', 'one', 'one', cwd=ROOM)
    expect(not same.out and same.err == b'sleep-archive: no difference, by names and stored hashes; nothing is audited\n', 'told otherwise', same)
    done('add', 'one', 'sleeve', '--as', '/gone', 'short', cwd=ROOM)
    ran = run('diff', 'one', '--first', '5,4', cwd=ROOM)
    expect(ran.status == 1 and ran.out == b'changed /gone\n', 'other differences since then', ran)
    for name in ('one', 'two'):
        shutil.rmtree(place(name))


def partial_copies():
    """A copy by numbers, of 2 GiB too, takes little room; what is not for copies; packets by the office and the cutting room; a piece comes back."""
    done('copy', 'large', '--content', '1048576,%d' % (2 << 30), cwd=ROOM)
    about = os.stat(os.path.join(ROOM, 'large', 'content.data'))
    expect(about.st_size == 2 << 30 and about.st_blocks < 1000, 'another size, or room is taken', about)
    expect(b'nothing is taken in yet of its 1048576 chunks, so no piece is held: `sleep-archive packets take large FILE' in done('status', 'large', cwd=ROOM).out, 'another status')
    shutil.rmtree(os.path.join(ROOM, 'large'))
    done('copy', 'part', '--of', 'coats', cwd=ROOM)
    for words, known in ((['list', 'part'], 'no name is known'), (['missing', 'part'], 'no piece is held'), (['root', 'part'], 'no name is known'), (['get', 'part', '/sleeve'], 'no name is known')):
        wrong(1, 'refused with 20', *words)
        wrong(1, known + ': `sleep-archive packets take part FILE --root METADATA,CONTENT` takes in', *words)
    root = dict(line.split() for line in done('root', 'coats', cwd=ROOM).out.decode().splitlines())
    done('packet', 'make', 'coats', '1', '-o', 'packet1', cwd=ROOM)
    wrong(1, '--root is needed: the archive\'s own root hash: refused with 20', 'packet', 'take', 'part', 'packet1', '--number', '1')
    wrong(1, 'packet1: refused with 13', 'packet', 'take', 'part', 'packet1', '--number', '1', '--root', 64 * '0')
    done('packet', 'take', 'part', 'packet1', '--number', '1', '--root', root['content'], cwd=ROOM)
    expect(done('get', 'part', '1', cwd=ROOM).out == done('get', 'coats', '1', cwd=ROOM).out, 'another piece')
    wrong(1, 'refused with 18', 'get', 'part', '0')
    for words in (['add', 'part', 'sleeve'], ['sign', 'part', '--content', 'signature'], ['compare', 'part', 'coats'], ['compare', 'coats', 'part'],
                  ['needs', 'part', '--lengths', '5']):
        wrong(1, 'a partial copy, which has no signatures file', *words)
    expect(b'no signature is owed' in done('sign', 'part', cwd=ROOM).err, 'something is owed')
    done('release', 'part', '1', cwd=ROOM)
    done('packet', 'take', 'part', 'packet1', '--number', '1', cwd=ROOM)
    expect(done('audit', 'part', cwd=ROOM).out.count(b'accepted, a partial copy of') == 2, 'not accepted')
    shutil.rmtree(os.path.join(ROOM, 'part'))


def copies_that_follow():
    """Wrong words and wrong files of `packets`, `grow` and `copy --names`; and what is done, is done in the words that are said."""
    place = lambda name: os.path.join(ROOM, name)
    roots = done('root', 'coats', cwd=ROOM).out.decode().split()
    own = roots[1] + ',' + roots[3]
    done('packets', 'make', 'coats', '/sleeve', '-o', 'sent', cwd=ROOM)
    done('copy', 'part', '--of', 'coats', cwd=ROOM)
    for said, *words in (
            ('packets make, packets take or packets show', 'packets'), ('packets make, packets take or packets show', 'packets', 'send'),
            ('an archive and names are needed', 'packets', 'make'), ('an archive and names are needed', 'packets', 'make', 'coats'),
            ('sleeve: a name of an archive begins with a slash', 'packets', 'make', 'coats', 'sleeve'),
            ('--first needs two numbers', 'packets', 'make', 'coats', '/sleeve', '--first', '3'),
            ('--since needs two numbers', 'packets', 'make', 'coats', '--since', '3'),
            ('--since 100: metadata has', 'packets', 'make', 'coats', '--since', '100,0'),
            ('an archive and a file of packets are needed', 'packets', 'take', 'part'),
            ('an archive and a file of packets are needed', 'packets', 'take', 'part', 'sent', 'sent'),
            ('just a file of packets is needed', 'packets', 'show'), ('nofile: no such file', 'packets', 'show', 'nofile'), ('a folder, and no file', 'packets', 'show', 'coats'),
            ('--without-journal is for reading', 'packets', 'take', 'part', 'sent', '--without-journal'),
            ('--large-journal is for reading', 'packets', 'take', 'part', 'sent', '--large-journal'),
            ('--root, --of or --with, and not two of them', 'packets', 'take', 'part', 'sent', '--root', own, '--of', 'coats'),
            ('--root needs the root hashes of metadata and of content', 'packets', 'take', 'part', 'sent', '--root', roots[1]),
            ('--root needs the root hashes of metadata and of content', 'packets', 'take', 'part', 'sent', '--root', ','),
            ('--root needs root hashes: 64 hexadecimal digits each', 'packets', 'take', 'part', 'sent', '--root', roots[1] + ',abc'),
            ('--root METADATA,CONTENT is needed', 'packets', 'take', 'part', 'sent'), ('nobody has checked: metadata ' + roots[1], 'packets', 'take', 'part', 'sent'),
            ("it can't be run, and nothing is known", 'packets', 'take', 'part', 'sent', '--with', 'exit 127'),
            ('a copy and --of ARCHIVE are needed', 'grow'), ('a copy and --of ARCHIVE are needed', 'grow', 'part'),
            ('a copy and --of ARCHIVE are needed', 'grow', 'part', '--of', 'coats', '--root', own),
            ('--root METADATA,CONTENT is needed', 'grow', 'part', 'sent'), ('--of is another archive', 'grow', 'part', '--of', 'part'), ('there is no option --names', 'grow', 'part', '--names'),
            ('a folder, --of ARCHIVE, --names and names are needed', 'copy', 'more', '--names', '/sleeve'), ('a folder, --of ARCHIVE', 'copy', 'more', '--of', 'coats', '--names'),
            ('sleeve: a name of an archive begins with a slash', 'copy', 'more', '--of', 'coats', '--names', 'sleeve'),
            ('--of ARCHIVE, or --content', 'copy', 'more', '--of', 'coats', '--names', '/sleeve', '--content', '1,1'),
            ('there is an archive already', 'copy', 'part', '--of', 'coats', '--names', '/sleeve'), ('there is an archive already', 'copy', 'coats', '--of', 'coats', '--names', '/sleeve'),
            ('--first needs a number', 'packet', 'make', 'coats', '0', '--first', 'x')):
        wrong(2, said, *words)
    for said, *words in (
            ('/nosuch: there is no such name, and no folder of it', 'packets', 'make', 'coats', '/nosuch'), ('refused with 9', 'packets', 'make', 'coats', '/sleeve', '--first', '9,9'),
            ('there is no such name', 'packets', 'make', 'coats', '/sleeve', '--first', '1,0'), ('/collar: not held here', 'packets', 'make', 'gone', '/collar'),
            ('refused with 9', 'packet', 'make', 'coats', '0', '--first', '99'), ('refused with 9', 'packet', 'make', 'coats', '0', '--first', '0'),
            ('no file of packets; nothing is changed', 'packets', 'take', 'part', 'sleeve'), ('no file of packets', 'packets', 'show', 'sleeve'),
            ('the packet of chunk 0 of metadata, nothing is changed: refused with 13', 'packets', 'take', 'part', 'sent', '--root', 64 * '0' + ',' + roots[3]),
            ('the signature of the file\'s root hash, ' + roots[1] + ', is not good', 'packets', 'take', 'part', 'sent', '--with', 'false'),
            ('it is no partial copy: `add` makes it grow', 'grow', 'coats', '--of', 'part'), ('/nosuch: there is no such name', 'copy', 'more', '--of', 'coats', '--names', '/nosuch')):
        wrong(1, said, *words)
    expect(not os.path.exists(place('more')), 'something was made')
    shown = done('packets', 'show', 'sent', cwd=ROOM).out.decode()
    expect(roots[1] in shown and roots[3] in shown and shown.endswith('nobody has checked\n'), 'shown otherwise', shown)
    ran = done('packets', 'take', 'part', '-', '--root', own, cwd=ROOM, stdin=open(place('sent'), 'rb').read())
    expect(b' packets taken in' in ran.out and done('packets', 'take', '-q', 'part', 'sent', cwd=ROOM).out == b'', 'not said', ran)
    expect(done('get', 'part', '/sleeve', cwd=ROOM).out == done('get', 'coats', '/sleeve', cwd=ROOM).out, 'another piece')
    done('copy', 'other', '--content', '1,1', cwd=ROOM)
    wrong(1, 'nothing is changed', 'packets', 'take', 'other', 'sent', '--root', own)
    for name in ('part', 'other', 'sent'):
        shutil.rmtree(place(name)) if os.path.isdir(place(name)) else os.remove(place(name))


def helps():
    """The help names every command, on lines that a terminal has; a command's own help is its part of it."""
    page = done('--help').out.decode()
    expect(max(map(len, page.splitlines())) <= 78, 'a long line in the help')
    for name in ('new', 'copy', 'add', 'sign', 'list', 'get', 'export', 'status', 'audit', 'verify', 'sheet', 'signature', 'compare', 'diff', 'root', 'label', 'needs', 'release', 'missing', 'packet', 'packets', 'grow', 'hold', 'journal', 'group', 'ungroup'):
        own = done(name, '--help').out.decode()
        heads = [line for line in own.splitlines() if line.startswith('  sleep-archive ')]
        expect(heads and own in page and done(name, '-h').out.decode() == own == done('help', name).out.decode(), 'no help on ' + name, own)
        expect(all(line.split()[1] == name for line in heads) or 'group' in name, 'other help on ' + name, own)
    expect('==' not in page and done('help').out.decode() == page, 'marks in the help, or another page')
    for words in ('metadata files.', 'checks no signature', 'checked by\n      nobody', 'NFS without nolock', 'several names is not written'):
        expect(words in page, 'unsaid: ' + words)
    done('get', 'coats', '0', '-o', '-h', cwd=ROOM)
    with open(os.path.join(ROOM, '-h'), 'rb') as file:
        expect(file.read() == sleeve, 'the help was printed')
    os.remove(os.path.join(ROOM, '-h'))


def smaller():
    """--in takes a file from anywhere; nothing owed is said; a file that is no plain one is not waited for; standard input is measured too."""
    done('new', 'small', cwd=ROOM)
    done('add', 'small', '--in', '/coat', '../%s/sleeve' % os.path.basename(ROOM), cwd=ROOM)
    expect(done('list', 'small', cwd=ROOM).out.endswith(b' /coat/sleeve\n'), 'another name')
    expect(b'no signature is owed' in done('sign', 'coats', '--with', 'false', cwd=ROOM).err, 'nothing said')
    measured = done('needs', 'coats', '--as', '/x', '-', cwd=ROOM, stdin=bytes(5000)).out
    expect(measured == done('needs', 'coats', '--as', '/x', 'sleeve', cwd=ROOM).out, 'another need', measured)
    os.remove(os.path.join(ROOM, 'small', 'content.data'))
    os.mkfifo(os.path.join(ROOM, 'small', 'content.data'))
    ran = run('audit', 'small', cwd=ROOM)
    expect(ran.status == 2 and b'content.data: a pipe, and no plain file' in ran.err, 'no plain file', ran)
    os.mkfifo(os.path.join(ROOM, 'small', 'pipe'))
    ran = run('audit', 'small/pipe', cwd=ROOM)
    expect(ran.status == 2 and b'small/pipe: a file, and no folder' in ran.err, 'no folder', ran)
    shutil.rmtree(os.path.join(ROOM, 'small'))


def unheard():
    """What is done and can't be told is said to be done; and where nothing can be said, the status is what it is."""
    done('new', 'unheard', cwd=ROOM)
    with open('/dev/full', 'wb') as full:
        ran = subprocess.run([PROGRAM, 'add', 'unheard', 'sleeve'], cwd=ROOM, env=environment(), stdout=full, stderr=subprocess.PIPE)
        expect(ran.returncode == 2 and b'unheard: added; the root hashes could not be printed, `sign` prints them' in ran.stderr, 'not said', ran)
        expect(done('sign', 'unheard', cwd=ROOM).out.count(b'\n') == 2, 'not added')
        for status, words in ((1, ['add', 'unheard', 'collar']), (2, ['audit', 'nowhere']), (0, ['sign', 'coats'])):
            ran = subprocess.run([PROGRAM, *words], cwd=ROOM, env=environment(), stdout=subprocess.PIPE, stderr=full)
            expect(ran.returncode == status, 'another status where nothing can be said: %r' % words, ran)


def odd_names():
    """Any bytes are a name: listed on one line, and found again."""
    names = [b'/a\nb', b'/\xff\xfe', b'/\x9b2J', b'/\xe2\x80\xaegpj.', b'/\xc2\x9b1m', b'/caf\xc3\xa9', b'/back\\slash', b'/with space', b'/' + 254 * b'x']
    words = [word for name in names for word in (b'--as', name, b'sleeve')]
    done('new', 'odd', cwd=ROOM)
    done('add', 'odd', *words, cwd=ROOM)
    listed = done('list', 'odd', cwd=ROOM).out.splitlines()
    shown = [b'/a\\x0ab', b'/\\xff\\xfe', b'/\\x9b2J', b'/\\xe2\\x80\\xaegpj.', b'/\\xc2\\x9b1m', b'/caf\xc3\xa9', b'/back\\x5cslash', b'/with space', b'/' + 254 * b'x']
    expect([line.split(None, 3)[3] for line in listed] == shown, 'listed otherwise', listed)
    expect(done('list', 'odd', '-0', cwd=ROOM).out == b''.join(name + b'\0' for name in names), 'other names')
    objects = json.loads(done('list', 'odd', '--json', cwd=ROOM).out)
    expect([bytes.fromhex(one['name_hex']) for one in objects] == names, 'other names', objects)
    expect([one['name'] and one['name'].encode() for one in objects] == [None if set(name) & {0xff} or name == b'/\x9b2J' else name for name in names], 'other names', objects)
    expect(all(byte in range(32, 127) or byte == 10 for byte in done('list', 'odd', '--json', cwd=ROOM).out), 'a terminal would obey')
    expect(done('list', 'odd', '--long', cwd=ROOM).out.splitlines()[0] == b'     1 %o     1       0    5000 held %-20s /a\\x0ab' % (os.stat(os.path.join(ROOM, 'sleeve')).st_mode, b'-'), 'another line')
    for name in names:
        expect(done('list', 'odd', name.replace(b'\\', b'\\\\'), '-0', cwd=ROOM).out == name + b'\0', 'another name is meant', name)
        expect(done('get', 'odd', name, cwd=ROOM).out == sleeve, 'another piece', name)
    for words in (['get', 'odd', b'/\x1b[2J\x9b'], ['audit', b'no\x1b[2Jwhere'], ['add', 'odd', b'no\xe2\x80\xaefile'], [b'\x1b[2J'], ['get', 'odd', b'\x07'], ['new', b'\x1b/x']):
        ran = run(*words, cwd=ROOM)
        expect(ran.status and not set(ran.err[:-1]) & set(range(32)) and b'\x9b' not in ran.err and b'\xe2\x80\xae' not in ran.err, 'a terminal would obey', ran.err)


def filters():
    rng = random.Random(3)
    for length in (0, 1, 3, 4, 11, 65536):
        coordinates = rng.randbytes(length)
        grouped = done('group', stdin=coordinates).out
        expect(done('ungroup', stdin=grouped).out == coordinates, 'not undone', length)
    done('add', 'coats', '--as', '/grouped', '-', cwd=ROOM, stdin=grouped)
    expect(done('get', 'coats', '/grouped', cwd=ROOM).out == grouped, 'standard input is another piece')


def waiting_for(process):
    """Waits until the system lists the process among those that wait for a lock, or it has ended."""
    while process.poll() is None:
        with open('/proc/locks') as file:
            if any('->' in line and str(process.pid) in line.split() for line in file):
                return True
        time.sleep(0.01)
    return False


def stopped(process):
    while True:
        with open('/proc/%d/stat' % process.pid) as file:
            state = file.read().rsplit(')', 1)[1].split()[0]
        if state == 'T':
            return
        expect(state not in 'ZX', 'ended before it stopped')
        time.sleep(0.01)


def begun(*words, faults=None):
    return subprocess.Popen([PROGRAM, *words], cwd=ROOM, env=environment(faults), stdout=subprocess.PIPE, stderr=subprocess.PIPE)


def locks():
    """A writer that is stopped at a step: readers and writers wait for it, and see what it leaves."""
    done('new', 'busy', cwd=ROOM)
    for count, at in enumerate((1, 9, 12, 14, 20, 30), 1):
        writer = begun('add', 'busy', 'sleeve', faults={'UNDER': os.path.join(ROOM, 'busy'), 'KIND': 'stop', 'AT': at})
        stopped(writer)
        others = [begun('status', 'busy'), begun('audit', 'busy'), begun('sign', 'busy', '--with', 'head -c 64 /dev/zero')]
        expect(all(map(waiting_for, others)), 'somebody does not wait at step %d' % at)
        os.kill(writer.pid, signal.SIGCONT)
        outputs = [process.communicate() + (process.returncode,) for process in [writer] + others]
        expect([status for *_, status in outputs] == [0] * 4, 'not done at step %d' % at, outputs)
        expect(outputs[1][0].count(b'content: %d chunk' % count) == 1, 'not what the writer left', outputs)
    expect(done('audit', 'busy', cwd=ROOM).out.count(b'accepted') == 2, 'not accepted')


def results():
    """-o never cuts a file: no file of an archive is written, and another keeps what it had until all is there."""
    place = lambda name: os.path.join(ROOM, name)
    os.symlink('coats/content.data', place('link'))
    done('packet', 'make', 'coats', '0', '-o', 'packet', cwd=ROOM)
    root = done('root', 'coats', 'content', cwd=ROOM).out.split()[1]
    checking = ['packet', 'check', 'packet', '--chunks', '3', '--number', '0', '--root', root]
    for name in ('coats/content.data', 'coats/../coats/metadata.tree', 'link', 'gone/content.tree', 'coats/content.key', 'coats/sleep-archive.journal', 'coats/README.txt'):
        for words in (['get', 'coats', '1'], ['packet', 'make', 'coats', '1'], checking):
            wrong(2, name + ': a file of an archive; nothing is written', *words, '-o', name)
    write('result', b'good')
    write('result.tmp', b'mine')
    with open(place('long name'), 'wb') as file:
        done('get', 'coats', '0', '-o', 255 * 'x', cwd=ROOM)
    os.remove(place(255 * 'x'))
    os.chmod(place('result'), 0o600)
    kept = os.open(place('result'), os.O_RDONLY)
    done('get', 'coats', '0', '-o', 'result', cwd=ROOM)
    with open(place('result'), 'rb') as file:
        expect(file.read() == sleeve and os.stat(place('result')).st_mode & 0o777 == 0o600, 'another piece, or another mode')
    expect(os.read(kept, 9) == b'good', 'the file was cut')
    os.close(kept)
    with open(place('result.tmp'), 'rb') as file:
        expect(file.read() == b'mine', 'another file is written')
    killed_results(place)
    ways_out(place)
    done('get', 'coats', '0', '-o', '/dev/null', cwd=ROOM)
    expect(done('get', 'coats', '0', '-o', '-', cwd=ROOM).out == sleeve, 'not on standard output')
    wrong(2, 'drawings: is a directory', 'get', 'coats', '0', '-o', 'drawings')
    wrong(2, 'no such file or directory', 'get', 'coats', '0', '-o', 'no/such')


def killed_results(place):
    """A `get -o` that is killed leaves nothing in the way of the next one, nor do several at once stand in each other's."""
    fresh(place('results'))
    for _ in range(3):
        limit = lambda: resource.setrlimit(resource.RLIMIT_FSIZE, (1000, 1000))  # the system ends a program that writes more
        killed = subprocess.run([PROGRAM, 'get', 'coats', '0', '-o', 'results/piece'], cwd=ROOM, env=environment(), preexec_fn=limit)
        expect(killed.returncode == -signal.SIGXFSZ, 'not killed', killed)
        names = os.listdir(place('results'))
        done('get', 'coats', '0', '-o', 'results/piece', cwd=ROOM)
        os.remove(place('results/piece'))
    expect(names, 'nothing was left, so nothing is shown')
    several = [begun('get', 'coats', '0', '-o', 'results/piece') for _ in range(8)]
    expect([one.wait() for one in several] == [0] * 8, 'not all are done')
    with open(place('results/piece'), 'rb') as file:
        expect(file.read() == sleeve, 'another piece')


def ways_out(place):
    """-o onto a link to a pipe or to standard output writes there, and the link stays; onto one that leads nowhere nothing is written."""
    os.mkfifo(place('pipe'))
    os.symlink('pipe', place('to a pipe'))
    reader = subprocess.Popen(['cat', 'pipe'], cwd=ROOM, stdout=subprocess.PIPE)
    done('get', 'coats', '0', '-o', 'to a pipe', cwd=ROOM)
    expect(reader.communicate()[0] == sleeve and os.path.islink(place('to a pipe')), 'not through the link')
    os.symlink('/proc/self/fd/1', place('stdout'))  # as /dev/stdout, which a wrong program would replace
    expect(done('get', 'coats', '0', '-o', 'stdout', cwd=ROOM).out == sleeve, 'not on standard output')
    ran = subprocess.run(['bash', '-c', '{ echo first; "$0" get coats 0 -o stdout; echo last; } > both; "$0" get coats 0 -o >(cat > beside); wait; sync', PROGRAM],
                         cwd=ROOM, env=environment(), capture_output=True)
    with open(place('both'), 'rb') as file:
        expect(ran.returncode == 0 and file.read() == b'first\n' + sleeve + b'last\n', 'standard output is another file', ran)
    expect(os.path.islink(place('stdout')), 'the link is replaced')
    for name in ('pipe', 'to a pipe', 'both', 'stdout'):
        os.remove(place(name))
    os.symlink('nowhere', place('leads nowhere'))
    wrong(2, 'leads nowhere: a link that leads nowhere; nothing is written', 'get', 'coats', '0', '-o', 'leads nowhere')
    os.remove(place('leads nowhere'))


def library_is_built_again():
    """`make -C tools` builds the library again that is older than a crate's source."""
    tools = os.path.join(os.path.dirname(TARGET), 'tools')
    for newer in ('../crates.txt', '../crates/c_api/src/lib.rt'):
        ran = subprocess.run(['make', '-n', '-C', tools, '-W', newer], capture_output=True)
        expect(b'examples archive' in ran.stdout, 'an old library stays', newer, ran)


def moved_folders():
    """While a program waits for the lock its folder gets another name, and another folder takes its own: the change is made in that one. A folder that is
    moved while it is changed is changed wherever it is."""
    place = lambda name: os.path.join(ROOM, name)
    for name in ('here', 'there'):
        done('new', name, cwd=ROOM)
    handle = os.open(place('here'), os.O_RDONLY)
    fcntl.flock(handle, fcntl.LOCK_EX)
    waiting = begun('add', 'here', 'sleeve')
    expect(waiting_for(waiting), 'does not wait')
    os.rename(place('here'), place('moved'))
    os.rename(place('there'), place('here'))
    os.close(handle)
    waiting.communicate()
    counts = [done('status', name, cwd=ROOM).out.count(b'content: 1 chunk,') for name in ('here', 'moved')]
    expect((waiting.returncode, counts) == (0, [1, 0]), 'added to another folder', counts)
    untouched = under(place('here'))
    for at in (2, 12, 20):
        writer = begun('add', 'moved', 'sleeve', faults={'UNDER': ROOM, 'KIND': 'stop', 'AT': at})
        stopped(writer)
        os.rename(place('moved'), place('again'))
        os.rename(place('here'), place('moved'))
        os.kill(writer.pid, signal.SIGCONT)
        expect(writer.wait() == 0, 'not done', writer.communicate())
        expect(under(place('moved')) == untouched, 'another folder is changed, from step %d on' % at)
        os.rename(place('moved'), place('here'))
        os.rename(place('again'), place('moved'))
        done('sign', 'moved', '--with', 'head -c 64 /dev/zero', cwd=ROOM)
        expect(done('audit', 'moved', cwd=ROOM).out.count(b'accepted') == 2, 'not accepted')


def large():
    """An archive of 64 GiB, whose files are holes but for a few entries, opens at once: a command takes the memory of what it looks at and changes."""
    archive, peak = os.path.join(ROOM, 'large'), os.path.join(ROOM, 'peak')
    done('new', archive)
    n, chunk = 1048575, 700000
    for name, length in (('tree', 32 + 40 * (2 * n - 1)), ('signatures', 32 + 64 * n), ('bitfield', 32 + 3328 * 128), ('data', 65536 * n)):
        os.truncate(os.path.join(archive, 'content.' + name), length)
    with open(os.path.join(archive, 'content.tree'), 'r+b') as file:
        for index in set(model.roots(n)).union(*model.packet_indexes(n, chunk), way_up(n, chunk)):
            file.seek(32 + 40 * index + 32)
            file.write((65536 * 2 ** model.depth(index)).to_bytes(8, 'big'))
    with open(os.path.join(archive, 'content.bitfield'), 'r+b') as file:
        at, bit = model.bit_at(chunk, 8192, 0)
        file.seek(at)
        file.write(bytes([bit]))
    write('piece', bytes(range(256)) * 256)
    for status, words in ((0, ['status']), (0, ['root', 'content', '--first', '1048575']), (1, ['get', str(chunk)]), (0, ['release', str(chunk)]), (1, ['release', str(chunk)]),
                          (0, ['add', '--as', '/last', os.path.join(ROOM, 'piece')]), (0, ['sign', '--with', 'head -c 64 /dev/zero']), (0, ['get', '/last'])):
        ran = run(words[0], archive, *words[1:], faults={'PEAK': peak})
        expect(ran.status == status, 'on a large archive: %r' % words, ran)
        with open(peak) as file:
            expect(int(file.read()) < 32 * 1024, 'more than 32 MiB for %r' % words)
    expect(ran.out == bytes(range(256)) * 256, 'another piece')
    expect(os.path.getsize(os.path.join(archive, 'content.data')) == 65536 * 1048576, 'another length')
    shutil.rmtree(archive)


def seconds(*words):
    """The processor's time that a command takes."""
    before = resource.getrusage(resource.RUSAGE_CHILDREN).ru_utime
    done(*words, cwd=ROOM)
    return resource.getrusage(resource.RUSAGE_CHILDREN).ru_utime - before


def many_zeros():
    """Zeros, added or left by a release, take about the time of other bytes."""
    zeros = [word for k in range(255) for word in ('--as', '/%d' % k, 'zeros')]
    write('zeros', bytes(65536))
    done('new', 'empties', cwd=ROOM)
    done('new', 'collars', cwd=ROOM)
    usual = seconds('add', 'collars', *['collar' if word == 'zeros' else word for word in zeros])
    expect(seconds('add', 'empties', *zeros) < 3 * usual + 0.5, 'zeros take long to add')
    expect(seconds('release', 'collars', *map(str, range(255))) < 3 * usual + 0.5, 'zeros take long to write down')
    for name in ('empties', 'collars'):
        shutil.rmtree(os.path.join(ROOM, name))


def scattered():
    """Every other piece of many is released by one command, of a page each: more places than a process may have mappings."""
    archive, n, size = os.path.join(ROOM, 'scattered'), 70000, 4096
    done('new', archive)
    used = model.used_sizes(n, n, n * size)
    for name, length in zip(('tree', 'signatures', 'bitfield', 'data'), used):
        os.truncate(os.path.join(archive, 'content.' + name), length)
    tree = bytearray(used[0] - 32)
    for index in range(2 * n - 1):
        tree[40 * index + 32:40 * index + 40] = (size << model.depth(index)).to_bytes(8, 'big')
    for name, content in (('tree', tree), ('bitfield', b'\xff' * (used[2] - 32))):
        with open(os.path.join(archive, 'content.' + name), 'r+b') as file:
            file.seek(32)
            file.write(content)
    looked_at = [*range(100), *range(32700, 32900), *range(n - 100, n)]
    with open(os.path.join(archive, 'content.data'), 'r+b') as file:
        for chunk in looked_at:
            file.seek(chunk * size)
            file.write(b'x' * size)
    done('release', archive, *map(str, range(0, n, 2)))
    expect(done('missing', archive).out.split() == [b'%d' % chunk for chunk in range(0, n, 2)], 'others are released')
    with open(os.path.join(archive, 'content.data'), 'rb') as file:
        for chunk in looked_at:
            file.seek(chunk * size)
            expect(file.read(size) == (b'x' if chunk % 2 else b'\0') * size, 'another piece', chunk)
    shutil.rmtree(archive)


def way_up(n, chunk):
    """The tree indexes from a chunk's leaf up to its root."""
    index, found = 2 * chunk, [2 * chunk]
    while index not in model.roots(n):
        index = model.parent(index)
        found.append(index)
    return found


def on_read_only_medium(folder, *words):
    """A command on a folder that is mounted to be read only, where this user may do that, or whose files and folder may not be written."""
    if os.geteuid() == 0:
        mount = 'mount --bind "$0" "$0" && mount -o remount,bind,ro "$0" && exec "$@"'
        ran = subprocess.run(['unshare', '-m', 'sh', '-c', mount, folder, PROGRAM, *words], capture_output=True)
        return Ran(ran.returncode, ran.stdout, ran.stderr)
    paths = [os.path.join(folder, name) for name in os.listdir(folder)]
    for path in paths + [folder]:
        os.chmod(path, 0o555)
    ran = run(*words)
    os.chmod(folder, 0o755)
    return ran


def unwritable_medium():
    """An archive on a medium that can't be written is read as any other, with its journal too, and no command changes it."""
    folder = os.path.join(ROOM, 'medium')
    for kind, at, left, chunks in (('kill', 16, JOURNAL, b'1 chunk,'), ('torn', 9, UNSYNCED, b'0 chunks'), ('kill', 1, None, b'0 chunks')):
        fresh(folder)
        done('new', folder)
        run('add', folder, 'sleeve', cwd=ROOM, faults={'UNDER': folder, 'KIND': kind, 'AT': at})
        before = under(folder)
        expect([name for name in before if name in (JOURNAL, UNSYNCED)] == [left] * (left is not None), 'another step', sorted(before))
        ran = on_read_only_medium(folder, 'audit', folder)
        expect(ran.status == 0 and b'content: accepted, ' + chunks in ran.out and not ran.err, 'not read', ran)
        ran = on_read_only_medium(folder, 'add', folder, os.path.join(ROOM, 'sleeve'))
        expect(ran.status == 2 and ran.err, 'not refused', ran)
        expect(under(folder) == before, 'changed', ran)


def main():
    global sleeve
    rng = random.Random(2)
    fresh(ROOM)
    sleeve = rng.randbytes(5000)
    write('sleeve', sleeve)
    write('lengths', b'65536 1')
    for name, size in (('collar', 65536), ('empty', 0), ('long', 65537), ('signature', 64), ('short', 3)):
        write(name, rng.randbytes(size))
    fresh(os.path.join(ROOM, 'drawings'))
    for archive in ('coats', 'owing', 'gone'):
        done('new', archive, cwd=ROOM)
        done('add', archive, 'sleeve', 'collar', '--as', '/coat/empty', 'empty', cwd=ROOM)
        if archive != 'owing':
            done('sign', archive, '--with', 'head -c 64 /dev/urandom', cwd=ROOM)
    done('release', 'gone', '1', cwd=ROOM)
    done('new', 'fresh', cwd=ROOM)
    wrong_words()
    wrong_files()
    refused()
    shutil.copytree(os.path.join(ROOM, 'coats'), os.path.join(ROOM, 'spoilt'))
    with open(os.path.join(ROOM, 'spoilt', 'content.data'), 'r+b') as file:
        file.write(b'spoilt')
    partial_copies()
    copies_that_follow()
    pages()
    quiet()
    differences()
    helps()
    results()
    smaller()
    unheard()
    odd_names()
    filters()
    locks()
    library_is_built_again()
    moved_folders()
    unwritable_medium()
    many_zeros()
    scattered()
    large()
    print('usage: wrong words, wrong files and refusals told, and nothing changed; pages in folders, quiet, differences, the help, results in files, names of any bytes, partial copies, filters, locks, folders that '
          'are moved, a medium that can\'t be written, many zeros, many places, 64 GiB')


if __name__ == '__main__':
    main()
