"""The lines of the program gate_script's script about registers that are built, and about the refusals of the calls that build them."""

from samples import FIRST, LAST, SIGNATURES, TEXT, bytes_of


def cases(script):
    script.run('# registers that are built')
    staged(script, (1024, 1024, 4096, 256), range(11), 7)
    long(script)
    begun(script, (152, 160, 31, 16), 0, 7)
    refusals(script)
    staged(script, (655552, 524480, 6720, 8192), range(8190, 8195), 2)
    bitfields(script)


def begun(script, sizes, upto, span):
    """Where no register could be started the root hash is refused too."""
    script.begun(FIRST, sizes)
    if upto > 0:
        script.run('grow %d %d' % (upto, span))
    script.run('root')


def staged(script, sizes, counts, span):
    begun(script, sizes, counts[0], span)
    for n in counts[1:]:
        script.run('grow %d %d' % (n, span))
        script.run('root')


def tried(script, *row):
    """An append, a signature and the root hash, each of the register as it is told."""
    *numbers, count = row
    for line in ('append 0 %d' % count, None, 'root'):
        script.told(*numbers)
        if line:
            script.run(line)
        else:
            script.sign(bytes_of(numbers[0] % 1000))


def long(script):
    """Chunks of 65,536 and 65,537 bytes, and one that just fits the data buffer."""
    begun(script, (1024, 1024, 4096, 65540), 0, 7)
    script.run('fill %d 0 65537 90 0' % TEXT)
    for row in ((0, 0, 0, 65537), (0, 0, 0, 65536), (1, 0, 65536, 5), (1, 1, 65536, 5), (1, 1, 65536, 4), (2, 1, 65540, 4)):
        tried(script, *row)


def refusals(script):
    begun(script, (152, 160, 3360, 16), 2, 7)
    for numbers in ((1048577, 2, 1), (1048576, 2, 1), (2, 3, 1), (0, LAST, 1), (3, 2, 1), (2, 2, 2), (2, 2, 1), (2, 1, 1)):
        tried(script, *numbers, 3)
    script.turn((SIGNATURES, 7, 6))
    tried(script, 2, 2, 1, 3)


def bitfields(script):
    """Up to 16,386 chunks, where bitfield entries begin: chunk 16,383 completes a parent whose tree bit lies in an earlier entry."""
    staged(script, (1310912, 1048736, 10048, 8), (8191, 8192, 8193, 16383, 16384, 16385, 16386), 1)
