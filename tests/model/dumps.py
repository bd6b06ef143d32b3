"""The lines of the program gate_script's script about the registers of FORMAT.md, and the page's worked examples, made of what the program answers.

`python3 dumps.py STDOUT` prints the worked examples as the page shows them: each is made of the answers in the text that the program prints, and not
of the model's."""

import sys

from samples import FIRST, ROOT_AT, SIGNATURE_AT, TEXT, said
from sleep_model import ENTRY, Register, append, packet_indexes, start, store_signature, used_sizes

# The hash of the parent of two leaves `hello world`, as the tests of the Hypercore project have it.
OUTSIDE = '43563406adba8b34b133fdca32d0a458c5be769615e01df30e6535ccd3c075f0'
FILES = 'tree', 'signatures', 'bitfield', 'data'
ROOM = 2048, 1024, 4096, 1024
REMARK = '# the worked examples of the format\'s page'


# ---- Registers ----
def cut(data, lengths):
    ends = [sum(lengths[:k + 1]) for k in range(len(lengths))]
    return [data[end - length:end] for end, length in zip(ends, lengths)]


def chunks_of(n):
    """The chunks of the register of n chunks."""
    if n == 7:
        return cut(bytes(at % 251 for at in range(973)), (119, 120, 0, 247, 248, 120, 119))
    named = {1: [b'coat'], 2: [b'hello world'] * 2, 3: [b'AB', b'', b'CDE']}
    return named.get(n) or [bytes([97 + k]) * k for k in range(n)]


def signed(n, k):
    """Each chunk but for the last of seven; the signature of chunk k is 64 bytes of value k + 1."""
    return (n, k) != (7, 6)


def register(n):
    r = Register(*map(bytearray, ROOM))
    start(r)
    for k, chunk in enumerate(chunks_of(n)):
        append(r, chunk)
        if signed(n, k):
            store_signature(r, bytes([k + 1]) * 64)
    return r


def given(answer):
    return ' '.join(map(str, answer)) if answer[0] == 'done' else said(answer)


def built(script, n):
    """The same by lines of the script, as both registers: its data lies in the text."""
    chunks, at = chunks_of(n), 0
    script.run('swap')
    script.begun(FIRST, ROOM, bytes(4))
    for period in range(0, 973, 251) if n == 7 else ():
        script.run('fill %d %d 251 0 1' % (TEXT, period))
    script.written(TEXT, 0, b''.join(chunks))
    for k, chunk in enumerate(chunks):
        script.run('append %d %d' % (at, at + len(chunk)))
        at += len(chunk)
        if signed(n, k):
            script.run('fill %d %d 64 %d 0' % (TEXT, SIGNATURE_AT, k + 1))
            script.run('sign %d' % SIGNATURE_AT)
    numbers = script.numbers[0]
    script.run('swap')
    script.lend_from(FIRST, ROOM)
    script.told(*numbers)


# ---- The page ----
def hashes(script):
    script.written(TEXT, 0, b'abc')
    for output in (32, 64, 20):
        yield 'hash abc', output, script.run('hash %d 0 3' % output)
    script.run('fill %d 0 256 0 1' % TEXT)
    for count in (0, 128, 129, 256):
        yield 'hash', count, 32, script.run('hash 32 0 %d' % count)


def root(script):
    return script.run('root').removeprefix('done:')


def shown(script, file, end):
    return bytes.fromhex(script.run('show %d 0 %d' % (file, end)))


def dump(script, n):
    """The header, if there is one, and then lines of `width` bytes; lines of zeros alone are left out."""
    built(script, n)
    yield 'register', *script.numbers[0]
    yield 'root', root(script)
    for file, (used, header, width) in enumerate(zip(used_sizes(*script.numbers[0]), (32, 32, 32, 0), (40, 64, 32, 64))):
        image = shown(script, file, used)
        for at, end in [(0, header)] + [(at, min(at + width, used)) for at in range(header, used, width)]:
            if any(image[at:end]):
                yield FILES[file], at, image[at:end].hex()


def packet(script, n, chunk):
    """A line for each part. The packet stays in the text, and its root hash."""
    built(script, n)
    siblings, others = packet_indexes(n, chunk)
    names = ['length', 'chunk', 'siblings', *entries(siblings), 'roots', *entries(others)]
    sizes = [4, len(chunks_of(n)[chunk]), 1, *[ENTRY] * len(siblings), 1, *[ENTRY] * len(others)]
    yield 'packet', n, chunk
    yield 'root', root(script)
    script.run('bring %d 0 %d' % (chunk, sum(sizes)))
    yield from zip(names, (part.hex() for part in cut(shown(script, TEXT, sum(sizes)), sizes)))


def entries(indexes):
    return ['entry %d' % index for index in indexes]


def checks(script):
    script.written(TEXT, ROOT_AT, bytes.fromhex(root(script)))
    for n, chunk in ((13, 9), (13, 8), (14, 9), (13, 12), (12, 9), (13, 13), (1048577, 9)):
        yield 'check', n, chunk, script.run('check %d %d %d 0 175' % (n, chunk, ROOT_AT)).partition(':')[0]


def asked(script, n, change, *lines):
    """The register of n chunks, in which a file's byte gets a value, and what the audit and other calls answer."""
    turned = ()
    if change:
        name, at, byte = change
        turned = (FILES.index(name), at, script.buffers[FILES.index(name)][at] ^ byte),
        change = name, at, '%02x' % byte
    yield 'asked', n, *change
    with script.turned(*turned):
        yield 'audit', script.run('audit')
        for line in lines:
            yield line, answered(script, line)


def answered(script, line):
    """What the audit answers under other numbers; else a refusal as it is, and `done` before what was answered."""
    if line.startswith('told'):
        before = script.numbers[0]
        script.run(line)
        answer = script.run('audit')
        script.told(*before)
        return answer
    answer = script.run(line.replace('read', 'get 1')).replace(':', ' ').strip()
    return answer if answer.startswith(('done', 'refused')) else 'done ' + answer


def answers(script):
    built(script, 3)
    yield from asked(script, 3, (), 'told 3 2 5', 'told 1048577 1 5', 'told 3 1 2000', 'told 3 3 2000', 'told 3 3 4', 'place 0', 'place 1', 'place 2',
                     'place 3', 'byte 1', 'byte 2', 'byte 5', 'byte 6', 'read 2', 'read 3')
    yield from asked(script, 3, ('tree', 112, 0x50), 'read 0', 'read 1')
    yield from asked(script, 3, ('tree', 231, 4))
    yield from asked(script, 3, ('signatures', 31, 1))
    built(script, 7)
    yield from asked(script, 7, ('signatures', 415, 0))
    built(script, 10)
    yield from asked(script, 10, ('tree', 191, 7), 'place 0', 'place 8', 'byte 0', 'byte 30')
    yield from asked(script, 10, ('tree', 791, 10), 'byte 44', 'byte 45')
    yield from asked(script, 10, ('tree', 632, 1))
    yield from asked(script, 10, ('bitfield', 33, 0xe0))


def page(script):
    """The parts of the text that chunks and a root hash lie in hold zeros first, whatever was there."""
    script.run(REMARK)
    script.run('fill %d 0 1024 0 0' % TEXT)
    script.run('fill %d %d 32 0 0' % (TEXT, ROOT_AT))
    yield from hashes(script)
    for n in (0, 1, 2, 3, 7, 10):
        yield from dump(script, n)
    yield from packet(script, 3, 0)
    yield from packet(script, 13, 9)
    yield from checks(script)
    yield from answers(script)


def cases(script):
    assert ('tree', 72, OUTSIDE + '%016x' % 22) in list(page(script))


if __name__ == '__main__':
    from script import Printed
    for words in page(Printed(open(sys.argv[1]).read(), REMARK)):
        print(*words)
