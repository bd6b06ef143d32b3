"""The lines of the program gate_script's script about audits and comparisons in parts. `cut a b c d` asks for the tree entries from a on and before b and
for the bitfield's entries from c on and before d, and for what both say together; `Cut` does so on a copy; `xwalk a b` asks for the checks of both registers, for
their roots and for a part of the walk."""

import copy

from audits import EQUAL, EVEN, OTHER_COUNTS, OTHER_CUTS, SPOILT, TOLD_WRONG, entry, places, register, walked
from copies import forget, hold, partial, stands, turn
from parts import (audit_bitfield_part, audit_tree_part, compare_held_part, compare_roots_part, compare_walk_part, copy_audit_bitfield_part,
                   copy_audit_tree_part, together)
from samples import BITFIELD, DATA, LAST, TREE
from sleep_model import ENTRY, HEADER, audit, compare, tree_entries
from copy_model import audit_copy

BAD = [(0, 0, 0, 0), (7, 7, 1, 1), (9, 4, 1, 0), (25, 30, 1, 2), (24, 25, 0, 1), (LAST, LAST, LAST, LAST), (LAST, 0, LAST, 0), (0, LAST, 0, LAST),
       (LAST - 1, LAST, LAST - 1, LAST), (24, LAST, 1, LAST)]
THIRDS = (0, 9, 0, 1), (18, LAST, 1, 0), (8, 18, 1, 2)  # they cover 13 chunks; in another order, one overlaps, and others are empty


def cases(script):
    script.run('# audits and comparisons in parts')
    register(script, 13, 5)
    for ranges in BAD:
        script.run('cut %d %d %d %d' % ranges)
    spoilt = [place for file, several in enumerate(places(13)) for place in ((file, at, 1) for at in several[::11])]
    for change in spoilt:
        with script.turned(change):
            in_thirds(script)
    with script.turned(entry(3, 0, 1), entry(20, 1, 1), (BITFIELD, 32, 1)):
        in_thirds(script)
    sums(script)
    told_wrong(script)
    nothing(script)
    two_bitfield_entries(script)
    on_copies(script)
    for pair in [*EQUAL[::2], OTHER_CUTS[0], OTHER_CUTS[4], *OTHER_COUNTS[::3], *((EVEN, EVEN, changes) for changes in SPOILT[::3]), TOLD_WRONG[1]]:
        in_steps(script, *pair)
    collisions(script)


def in_thirds(script):
    """The whole audit, and parts that cover the files: together they give the same."""
    script.run('audit')
    r, answers = script.register(), []
    for ranges in THIRDS:
        script.run('cut %d %d %d %d' % ranges)
        answers += [audit_tree_part(r, *ranges[:2]), audit_bitfield_part(r, *ranges[2:])]
    assert together(answers) == audit(r)


def sums(script):
    """Leaf lengths before a part that add up past 2^63 and 2^64: what starts behind them starts past the data."""
    for lengths in ((LAST, 1, 0), (LAST, LAST, 5), (2 ** 63 - 1, 1, 0), (2 ** 63, 2 ** 63, 0), (1, 0, LAST)):
        before = [script.register().node(2 * k)[1] for k in range(3)]
        for k, length in enumerate(lengths):
            script.run('put %d %d %d' % (TREE, HEADER + ENTRY * 2 * k + 32, length))
        in_thirds(script)
        for a in (5, 6, 7, 8):
            script.run('cut %d %d 0 0' % (a, a + 1))
        for k, length in enumerate(before):
            script.run('put %d %d %d' % (TREE, HEADER + ENTRY * 2 * k + 32, length))
    assert audit(script.register()) == ('done',)


def told_wrong(script):
    numbers = script.numbers[0]
    for n, s, size in ((14, 13, 23), (13, 11, 23), (13, 13, 22), (1048577, 13, 23), (LAST, LAST, LAST), (12, 12, 23)):
        script.told(n, s, size)
        in_thirds(script)
    script.told(*numbers)


def nothing(script):
    """Without chunks one part makes the checks."""
    script.told(0, 0, 0)
    script.run('cut 0 0 0 0')
    script.told(0, 0, 5)
    script.run('cut 0 0 0 0')
    script.told(13, 13, 23)


def two_bitfield_entries(script):
    register(script, 8193, 1, (655552, 524480, 6720, 8))
    for change in ((BITFIELD, 3359, 1), (BITFIELD, 3360, 1), (BITFIELD, 6687, 1), entry(16384, 0, 1)):
        with script.turned(change):
            for ranges in ((0, 0, 0, 1), (0, 0, 1, 2), (0, 0, 0, 2), (16383, 16385, 2, 9)):
                script.run('cut %d %d %d %d' % ranges)


# ---- Copies ----
def on_copies(script):
    """Each entry of a copy with another length, forgotten or known without reason: a descent may stop outside the range."""
    whole = partial()
    spoilt = [whole]
    for index in range(0, 25, 2):
        c = copy.deepcopy(whole)
        c.tree[HEADER + ENTRY * index + 39] ^= 1
        spoilt.append(c)
        index += index < 24
        c = copy.deepcopy(whole)
        forget(c, index) if c.known(index) else turn(c, index, known=True)
        spoilt.append(c)
    for chunk in (0, 6, 9, 12):
        c = copy.deepcopy(whole)
        hold(c, chunk, chunk in (0, 9))
        spoilt.append(c)
    for c in spoilt:
        stands(script, c)
        script.run('Audit')
        answers = []
        for ranges in THIRDS:
            script.run('Cut %d %d %d %d' % ranges)
            answers += [copy_audit_tree_part(c, *ranges[:2]), copy_audit_bitfield_part(c, *ranges[2:])]
        assert together(answers) == audit_copy(c)
    for ranges in BAD:
        script.run('Cut %d %d %d %d' % ranges)


# ---- Pairs ----
def in_steps(script, *pair):
    """A comparison step by step, and whole."""
    walked(script, *pair)
    first, second = script.register(), script.register(1)
    middle = tree_entries(min(first.n, 20)) // 2
    ranges = (middle, LAST), (0, middle)
    for ab in ranges:
        script.run('xwalk %d %d' % ab)
    answer = compare_roots_part(first, second)
    if answer == ('equal',):
        walks = [compare_walk_part(first, second, *ab) for ab in ranges]
        found = [one[1][1] for one in walks if one[0] == 'collision']
        answer = ('collision', ('tree', min(found))) if found else answer
    for r, which in ((second, 'second'), (first, 'first')):
        one = compare_held_part(r)
        one = audit(r) if one == ('done',) else one
        answer = answer if one == ('done',) else one + (which,)
    assert answer == compare(first, second)


def collisions(script):
    """Registers that no audit accepts may have other messages under the stored hash: each chunk changed in one of two."""
    walked(script, EVEN, EVEN)
    for at in range(0, 24, 5):
        with script.turned((DATA, at, 1)):
            for ab in ((0, 11), (0, 4), (4, 8), (8, 11), (2 * (at // 4), 2 * (at // 4) + 1)):
                script.run('xwalk %d %d' % ab)
    for index in (0, 1, 3, 5, 9):
        with script.turned((TREE, HEADER + ENTRY * index, 1)):
            script.run('xwalk 0 11')
    for lengths in ((LAST, 5), (2 ** 63, 2 ** 63)):
        before = [script.register().node(2 * k)[1] for k in range(2)]
        for k, length in enumerate(lengths):
            script.run('put %d %d %d' % (TREE, HEADER + ENTRY * 2 * k + 32, length))
        for ab in ((0, 1), (1, 2), (2, 3), (3, 11)):
            script.run('xwalk %d %d' % ab)
        for k, length in enumerate(before):
            script.run('put %d %d %d' % (TREE, HEADER + ENTRY * 2 * k + 32, length))
