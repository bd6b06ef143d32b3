"""The lines of the program gate_script's script about released chunks, request N8, and what has to hold of their answers by the papers.

Of the registers, chunk k is the first k % span bytes of bytes_of(k) and its signature is bytes_of(k + 101).
"""

from samples import BITFIELD, DATA, FIRST, LAST, SECOND, SIGNATURES, TEXT, TREE, bytes_of
from sleep_model import BITFIELD_ENTRY, DATA_BYTES, ENTRY, HEADER, TREE_BYTES, images_of, leaf_node, node_hash, register_of, used_sizes

INDEX = HEADER + DATA_BYTES + TREE_BYTES
GETS = 'get 0 %d', 'get 1 %d'  # a read of the register as the metadata register, and as the content register


def cases(script):
    run = script.run
    each(script, 20, 7)
    others(script)
    several(script, 40, 7)
    edges(run, 130)
    searches(run)
    refusals(script)
    audits(run)
    handed_in(script)
    longest_chunks(run)
    pairs(script)
    borders(script)


def lend(script, n, size, at=FIRST, spare=9, cut=(0, 0, 0, 0)):
    """Parts for a register of n chunks, with some bytes more or less."""
    ends = (a + used + spare - less for a, used, less in zip(at, used_sizes(n, n, size), cut))
    script.run('lend ' + ' '.join('%d %d' % both for both in zip(at, ends)))


def bytes_in(n, span):
    return sum(k % span for k in range(n))


def register(script, n, span, gone=(), at=FIRST, spare=9):
    lend(script, n, bytes_in(n, span), at, spare)
    script.run('told 0 0 0')
    script.run('start')
    script.run('grow %d %d' % (n, span))
    for chunk in gone:
        assert script.run('release %d' % chunk).startswith('done')


def chunks(script, *several):
    """An empty register, and chunks: their bytes, or how many bytes of some that follow each other by steps."""
    script.told(0, 0, 0)
    script.run('start')
    for k, chunk in enumerate(several):
        if isinstance(chunk, int):
            script.append_steps(k + 1, chunk)
        else:
            script.append(chunk)
        script.sign(bytes_of(k))


# ---- One release, and what the calls answer then ----
def each(script, n, span):
    script.run('# each chunk of %d, released alone' % n)
    run = script.run
    for chunk in (*range(n + 1), LAST):
        register(script, n, span)
        whole = run('root'), run('place %d' % chunk)
        done = run('release %d' % chunk).startswith('done')
        assert done == (chunk < n)
        assert run('audit') == 'done'
        assert (run('root'), run('place %d' % chunk)) == whole
        for call in ('release %d', *GETS, 'packet %d 300'):
            assert run(call % chunk).startswith('refused 18 tree %d' % (2 * chunk) if done else 'refused 9')
        for number in (0, chunk, min(chunk + 1, LAST)):
            assert run('search %d' % number) == (str(chunk) if done and number <= chunk else 'none')


def others(script):
    """Three chunks of thirteen gone, one of them with a sibling that is gone too: the other ones are as they were."""
    script.run('# the chunks beside released ones')
    run = script.run
    register(script, 13, 5)
    asked = [(call % chunk, chunk in (8, 3, 9)) for chunk in range(13) for call in (*GETS, 'packet %d 300')]
    asked += [('place %d' % chunk, False) for chunk in range(13)] + [('byte %d' % offset, False) for offset in range(25)]
    whole = [run(line) for line, _ in asked]
    for chunk in (8, 3, 9):
        run('release %d' % chunk)
    for (line, gone), before in zip(asked, whole):
        answer = run(line)
        assert answer.startswith('refused 18 tree') if gone else answer == before
    run('root')


def several(script, n, span):
    script.run('# all chunks of %d released, and then chunks appended' % n)
    run = script.run
    register(script, n, span, spare=1000)
    for step in range(n):
        chunk = (7 * step + 3) % n
        assert run('release %d' % chunk).startswith('done')
        assert run('audit') == 'done'
        for number in (0, 15, 16, 17, n - 1, n):
            run('search %d' % number)
    for k in range(3):
        script.append_steps(k, 5 * k)
        script.append_steps(9, 9)
        script.sign(bytes_of(k))
        assert run('audit') == 'done'
    run('fill %d 0 13 7 7' % TEXT)
    run('list 0 13 3 4 0 9')
    assert run('audit') == 'done'
    for number in (0, n - 1, n, n + 5, n + 6):
        run('search %d' % number)
    run('release %d' % (n + 4))  # an empty chunk of the list
    run('get 0 %d' % (n + 3))
    script.sign(bytes_of(8))
    run('release %d' % (n + 5))
    assert run('audit') == 'done'
    run('search %d' % n)


def edges(run, n):
    """At the edges of tuples, of 16 chunks, and of even Index bytes, of 64 chunks."""
    run('# the edges of tuples and of Index bytes')
    script = run.__self__
    for gone in ((15, 16), (0,), (31,), (32, 47), (63, 64), (127, 128), (129,), tuple(range(16, 32)), tuple(range(64)), tuple(range(64, 128))):
        register(script, n, 3, gone)
        assert run('audit') == 'done'
        for number in (0, gone[0], gone[-1], gone[-1] + 1):
            run('search %d' % number)


# ---- Searches ----
FROM = 0, 1, 15, 16, 17, 31, 32, 33, 40, 41, 63, 64, 98, 99, 100, 101, LAST


def searches(run):
    run('# searches that believe the stored tuples')
    script = run.__self__
    register(script, 100, 7)
    for number in FROM:
        assert run('search %d' % number) == 'none'
    register(script, 100, 7, (17, 40, 98))
    for number in FROM:
        run('search %d' % number)
    for group in range(7):
        at, shift = INDEX + 2 * (group // 4), 6 - 2 * (group % 4)
        right = 0b10 if group in (1, 2, 6) else 0b11
        for bits in (0b00, 0b01, 0b10, 0b11):  # any tuple in that group's place: 11 alone passes over it
            run('flip %d %d %d' % (BITFIELD, at, (bits ^ right) << shift))
            for number in (0, 18, 41, 98):
                run('search %d' % number)
            run('flip %d %d %d' % (BITFIELD, at, (bits ^ right) << shift))
    for at in (INDEX + 1, INDEX + 3, INDEX + 5, INDEX + 255):  # odd Index bytes are not read
        run('flip %d %d 255' % (BITFIELD, at))
    for number in FROM:
        run('search %d' % number)
    run('put %d %d %d' % (BITFIELD, INDEX, LAST))  # 11 throughout: none, whatever the data bits
    run('search 0')
    run('put %d %d 0' % (BITFIELD, INDEX))  # 00 throughout: the data bits decide
    for number in FROM:
        run('search %d' % number)


# ---- Refusals ----
def refusals(script):
    """13 chunks of 23 bytes together, of which all are held, or chunk 3 is released. The descent to it stops at a parent or at
    the leaf, or doesn't; or the leaf's hash is another. The packet has no room at all, which comes last."""
    run = script.run
    for gone in ((), (3,)):
        run('# refusals, chunk 3 %s' % ('released' if gone else 'held'))
        register(script, 13, 5, gone)
        for numbers in ((13, 12, 23), (1048577, 13, 23), (LAST, 13, 23), (13, 11, 23), (13, 14, 23), (13, 13, 33), (13, 13, 24), (13, 13, 22), (3, 3, 3),
                        (0, 0, 0)):
            ask_all(script, gone, *numbers)
        for image in range(4):
            cut = [0, 0, 0, 0]
            cut[image] = 10
            lend(script, 13, 23, cut=cut)
            ask_all(script, gone)
        lend(script, 13, 23)
        for image in (TREE, SIGNATURES, BITFIELD):
            changed(script, gone, image, HEADER - 1)
        for entry, byte in ((11, 39), (3, 39), (4, 39), (6, 0), (6, 39)):
            changed(script, gone, TREE, HEADER + ENTRY * entry + byte)
        lend(script, 13, 23 + 65536)  # a leaf above 65,536 whose parents and data agree with it
        lengths = [HEADER + ENTRY * entry + 37 for entry in (6, 5, 3, 7)]
        for at in lengths:
            run('flip %d %d 1' % (TREE, at))
        ask_all(script, gone, 13, 13, 23 + 65536)
        for at in lengths:
            run('flip %d %d 1' % (TREE, at))
    ordered(script)
    run('# an empty register')
    register(script, 0, 5)
    for line in ('release 0', 'get 0 0', 'get 1 0', 'packet 0 300', 'search 0', 'search 1', 'search %d' % LAST, 'audit', 'root'):
        run(line)


def ordered(script):
    """All that 2 to 6 refuse, and then one after the other put right; the chunks asked for are not there (9), released (18), or under a wrong entry (10)."""
    run = script.run
    run('# refusals, several at once')
    register(script, 13, 5, (3,))
    wrong = HEADER + ENTRY * 3 + 39
    run('flip %d %d 1' % (TREE, wrong))
    for right in range(2, 8):
        lend(script, 13, 23, cut=(0, 0, 10 * (right <= 4), 0))
        run('told %d %d %d' % (1048577 if right <= 2 else 13, 11 if right <= 3 else 13, 24 if right <= 6 else 23))
        if right in (2, 6):
            run('flip %d %d 1' % (SIGNATURES, HEADER - 1))
        several = [call % chunk for call in ('release %d', *GETS, 'packet %d 0') for chunk in (13, 3, 4)]
        for line in (*several, 'search 0', 'compare'):
            answer = run(line)
            assert right == 7 or line == 'compare' or answer.startswith('refused %d' % right)
    run('flip %d %d 1' % (TREE, wrong))
    for line in ('release 4', 'packet 2 0'):  # the next in 10's turn is 14
        run(line)


def changed(script, gone, image, at):
    script.run('flip %d %d 1' % (image, at))
    ask_all(script, gone)
    script.run('flip %d %d 1' % (image, at))


def ask_all(script, gone, n=13, s=13, size=23):
    """Every call that asks for chunk 3, and those that ask for none. What was released anew is held again."""
    for line in ('told %d %d %d' % (n, s, size), 'get 0 3', 'get 1 3', 'packet 3 0', 'place 3', 'search 0', 'root'):
        script.run(line)
    kept = [bytes(buffer[a:b]) for buffer, (a, b) in zip(script.buffers, script.parts[0])]
    if not gone and script.run('release 3').startswith('done'):
        restore(script, kept)
    elif gone:
        assert script.run('release 3').startswith('refused')
    script.run('told 13 13 23')


def restore(script, kept):
    """Puts back what the lent parts held."""
    for file, before in enumerate(kept):
        script.written(file, 0, before)


# ---- The audit ----
def audits(run):
    """13 chunks, lengths 0 1 2 3 4 0 1 2 3 4 0 1 2, without those that begin at 3, at 11 and at 21."""
    run('# audits, a byte turned at a time')
    script = run.__self__
    register(script, 13, 5, (3, 7, 12))
    assert run('audit') == 'done'
    for at in (HEADER, HEADER + 1):
        for shift in range(8):
            audited(run, (BITFIELD, at, 1 << shift))
    for at in (HEADER + 2, HEADER + DATA_BYTES - 1, *range(HEADER + DATA_BYTES, HEADER + DATA_BYTES + 4), *range(INDEX, INDEX + 8), INDEX + 255,
               HEADER + BITFIELD_ENTRY):
        audited(run, (BITFIELD, at, 1))
    for at in range(24):
        audited(run, (DATA, at, 1))
    for index in range(25):
        for part in (0, 39):
            audited(run, (TREE, HEADER + ENTRY * index + part, 1))
    for index in (6, 14, 24):
        for part in (31, 32, 37):
            audited(run, (TREE, HEADER + ENTRY * index + part, 1))
    run('# audits, bits cleared over other bytes, over zeros and over empty chunks')
    register(script, 13, 5)
    for chunk in range(13):  # with the Index as it was, which fits: no group of 16 is full
        audited(run, (BITFIELD, HEADER + chunk // 8, 0x80 >> chunk % 8))
    register(script, 16, 1)  # 16 empty chunks: a bit alone doesn't pass, with its Index it does
    audited(run, (BITFIELD, HEADER, 1))
    audited(run, (BITFIELD, HEADER, 1), (BITFIELD, INDEX, 0x40))
    odd = [(BITFIELD, INDEX + 2 ** d - 1, 0x80) for d in range(1, 8)]
    all_bits = [(BITFIELD, HEADER, 0xff), (BITFIELD, HEADER + 1, 0xff), (BITFIELD, INDEX, 0xc0)]
    audited(run, *all_bits)
    audited(run, *all_bits, *odd)
    lend(script, 3, 9, spare=700)
    chunks(script, b'\0', b'\0', b'\1\10\17')
    for chunk in range(3):
        audited(run, (BITFIELD, HEADER, 0x80 >> chunk))


def audited(run, *changes):
    """Bytes turned, and turned back."""
    for change in changes:
        run('flip %d %d %d' % change)
    run('audit')
    for change in changes:
        run('flip %d %d %d' % change)


# ---- Entries handed in ----
ANY_HASH = b'\7' * 32


def handed_in(script):
    """Leaf entries of released chunks that are handed in: any hash, and any length up to 65,536."""
    script.run('# leaf entries handed in')
    for pieces, expected in (
            ([(ANY_HASH, 0)], 'done'), ([(ANY_HASH, 5)], 'done'), ([(ANY_HASH, 65536)], 'done'), ([(ANY_HASH, 65537)], 'refused 10 tree 0'),
            ([b'AB', (ANY_HASH, 3)], 'done'), ([b'AB', (ANY_HASH, 0), b'CDE'], 'done'),
            ([(ANY_HASH, 1), (bytes(32), 2), (ANY_HASH, 65536), b''], 'done'), ([leaf_node(b'AB', node_hash), b'', b'CDE'], 'done'),
            ([b'\0\0', (ANY_HASH, 2), b'\0'], 'done')):
        r = register_of(pieces)
        cleared(script, r.size)
        given(script, r)
        assert script.run('audit') == expected
        script.run('root')
        script.run('search 0')
        at = next(k for k, piece in enumerate(pieces) if not isinstance(piece, bytes))
        for call in ('release %d', *GETS, 'packet %d 300', 'place %d'):
            script.run(call % at)
        script.run('put %d %d 0' % (TREE, HEADER + ENTRY * 2 * at))  # the parents don't follow, unless there are none
        script.run('audit')
        if r.size > 0:
            audited(script.run, (DATA, 0, 1))


def cleared(script, size):
    """Data of zeros, which two released chunks leave."""
    lend(script, 2, size)
    chunks(script, min(size, 65536), max(size - 65536, 0))
    for chunk in range(2):
        script.run('release %d' % chunk)


def given(script, r):
    """The images of a register, but for its signatures, written number by number."""
    ends = [used + 8 for used in used_sizes(r.n, r.n, r.size)]
    script.run('lend ' + ' '.join('0 %d' % end for end in ends))
    for file, (image, used) in enumerate(zip(images_of(r), used_sizes(r.n, r.n, r.size))):
        script.written(file, 0, bytes(image[:HEADER if file == SIGNATURES else used]))
    script.run('told %d %d %d' % (r.n, r.s, r.size))


def longest_chunks(run):
    run('# chunks of 65,536 bytes')
    script = run.__self__
    lend(script, 3, 2 * 65536 + 7, spare=64)
    chunks(script, 65536, 7, 65536)
    for line in ('release 2', 'audit', 'release 0', 'audit', 'get 0 1', 'get 1 1', 'packet 1 300', 'search 1', 'root'):
        run(line)


# ---- Pairs ----
def pairs(script):
    run = script.run
    run('# comparisons')
    for first, second in (((), ()), ((7,), ()), ((), (7,)), ((7,), (7,)), ((12, 9, 4), (7,)), ((7,), (12, 9, 4))):
        two(script, first, second)
        run('compare')
    for first, second in (((7,), ()), ((), (7,))):
        two(script, first, second)
        for image, at in ((TREE, HEADER + ENTRY * 4), (TREE, HEADER + ENTRY * 14), (BITFIELD, INDEX + 3), (SIGNATURES, HEADER - 1)):
            for _ in range(2):  # of one register, and then of the other; compared both ways
                for line in ('flip %d %d 1' % (image, at), 'compare', 'swap', 'compare', 'swap', 'flip %d %d 1' % (image, at), 'swap'):
                    run(line)
        run('told 13 11 23')
        run('compare')
        run('swap')
        run('compare')
    two(script, (7,), ())  # the comparison reads the data bits, whatever the Index says
    run('flip %d %d 64' % (BITFIELD, INDEX))
    run('search 0')
    run('compare')
    run('audit')


def two(script, first, second):
    """Two registers of 13 chunks, without some."""
    register(script, 13, 5, second, at=SECOND)
    script.run('swap')
    register(script, 13, 5, first)


# ---- Bitfield entries ----
def borders(script):
    run = script.run
    for n, gone in ((8193, (8191, 8192, 0)), (16385, (16384, 8192, 8191, 16383))):
        run('# the edges of bitfield entries, at %d chunks' % n)
        register(script, n, 2)
        for chunk in gone:
            run('release %d' % chunk)
            for number in (0, 1, 8190, 8191, 8192, 8193, n - 1, n):
                run('search %d' % number)
        assert run('audit') == 'done'
        run('flip %d %d 1' % (BITFIELD, used_sizes(n, n, 0)[2] - 3328 + 2))
        run('audit')
