"""The lines of the program gate_script's script about previews: each is followed by the append that it previews."""

from samples import BITFIELD, FIRST, LAST, SIGNATURES, TEXT, bytes_of


def cases(script):
    script.run('# previews')
    script.begun(FIRST, (1432, 1216, 3360, 256))
    stages(script, range(19), 7)
    borders(script)
    refusals(script)


def both(script, count):
    """A chunk previewed, and appended."""
    answer = script.run('preview 0 %d' % count)
    assert script.run('append 0 %d' % count).split(' ')[:-4] == answer.split(' ')
    return answer


def stages(script, counts, span):
    for n in counts:
        script.written(TEXT, 0, bytes_of(n)[:n % span])
        both(script, n % span)
        script.sign(bytes_of(n + 101))


def borders(script):
    """8,191 to 8,193 chunks, and 8,192 again where the second bitfield entry has no room."""
    sizes = 655552, 524480, 6720, 8192
    script.begun(FIRST, sizes)
    script.run('grow 8191 2')
    stages(script, (8191,), 2)
    script.lend_from(FIRST, (*sizes[:BITFIELD], 6687, *sizes[BITFIELD + 1:]))
    stages(script, (8192,), 2)
    script.lend_from(FIRST, sizes)
    stages(script, (8192, 8193), 2)


def refusals(script):
    script.begun(FIRST, (232, 160, 3360, 16))
    script.run('grow 2 7')
    script.run('fill %d 0 65537 90 0' % TEXT)
    for *numbers, count in ((1048577, 2, 1, 3), (1048576, 2, 1, 3), (2, 3, 1, 3), (0, LAST, 1, 3), (3, 3, 1, 3), (2, 2, 17, 3), (2, 2, 2, 3),
                            (2, 1, 1, 65537), (2, 1, 1, 16), (2, 2, 1, 16), (2, 2, 1, 15), (3, 2, 16, 0)):
        script.told(*numbers)
        both(script, count)
    script.turn((SIGNATURES, 7, 6))
    script.told(2, 2, 1)
    both(script, 3)
