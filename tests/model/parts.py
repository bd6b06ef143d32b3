"""Parts of audits and of the comparing walk, written from the page (docs/FORMAT.md, "Audits in parts"): each makes the checks of the whole call and then
judges the entries of a range, from a on and before b."""

from copy_model import check_known_size, judge_copy_entry, wrong_entries
from sleep_model import (BITFIELD_ENTRY, HEADER, bitfield_entries, bitfield_image, call, check_lent, check_register, children, entry_right, filled, held,
                         leaf_message, node_hash, refuse_if, tree_entries)


def within(k, a, b):
    """The numbers of a range that are below k: none where it is empty, turned round or outside."""
    return range(min(a, k), min(b, k))


def leaf_start(r, index):
    """Where the first leaf from an index on starts: the sum of the leaf lengths before it."""
    return sum(r.node(leaf)[1] for leaf in range(0, index, 2))


# ---- Of a register ----
@call
def audit_tree_part(r, a, b, F=node_hash):
    check_register(r)
    indexes = within(tree_entries(r.n), a, b)
    start = leaf_start(r, indexes.start) if indexes else 0
    for index in indexes:
        refuse_if(not entry_right(r, index, start, F), 10, ('tree', index))
        start += r.node(index)[1] if index % 2 == 0 else 0
    return ()


@call
def audit_bitfield_part(r, a, b):
    check_register(r)
    image = bitfield_image(r.n, frozenset(chunk for chunk in range(r.n) if not held(r, chunk)))
    for e in within(bitfield_entries(r.n), a, b):
        for at in range(HEADER + BITFIELD_ENTRY * e, HEADER + BITFIELD_ENTRY * (e + 1)):
            refuse_if(r.bitfield[at] != image[at], 11, ('bitfield', at))
    return ()


# ---- Of a copy ----
@call
def copy_audit_tree_part(c, a, b, F=node_hash):
    """The place may lie outside the range: the descent to a leaf may stop elsewhere."""
    check_lent(c)
    check_known_size(c)
    wrong = set().union(*(wrong_entries(c, index, F) for index in within(tree_entries(c.n), a, b)))
    refuse_if(wrong, 10, ('tree', min(wrong, default=None)))
    return ()


@call
def copy_audit_bitfield_part(c, a, b):
    check_lent(c)
    check_known_size(c)
    for e in within(bitfield_entries(c.n), a, b):
        judge_copy_entry(c, e)
    return ()


# ---- Of the comparing walk ----
@call
def compare_held_part(r):
    check_register(r)
    for chunk in range(r.n):
        refuse_if(not held(r, chunk), 18, ('tree', 2 * chunk))
    return ()


def both_checked(first, second):
    """The refusal of the register that does not pass the checks 2 to 6, with which one it is of; None where both pass."""
    for r, which in ((first, 'first'), (second, 'second')):
        answer = call(lambda: check_register(r) or ())()
        if answer[0] == 'refused':
            return answer + (which,)
    return None


def compare_roots_part(first, second, F=node_hash):
    refusal = both_checked(first, second)
    if refusal:
        return refusal
    if F(first.root_message()) != F(second.root_message()):
        return ('roots differ',)
    return ('equal',) if first.root_message() == second.root_message() else ('collision', 'at the roots')


def message(r, index, start):
    """Of the stored children, their lengths summed modulo 2^64 as 8 bytes tell them, or of the stored chunk, as far as the data reach."""
    if index % 2 == 0:
        return leaf_message(bytes(r.data[:r.size][start:start + r.node(index)[1]]))
    left, right = map(r.node, children(index))
    return b'\1' + ((left[1] + right[1]) % 2 ** 64).to_bytes(8, 'big') + left[0] + right[0]


def compare_walk_part(first, second, a, b):
    """By the stored hashes: of registers that no audit accepted they need not be those of the messages."""
    refusal = both_checked(first, second)
    if refusal:
        return refusal
    indexes = within(tree_entries(first.n), a, b) if first.n == second.n else range(0)
    starts = [leaf_start(r, indexes.start) if indexes else 0 for r in (first, second)]
    for index in indexes:
        one, other = (message(r, index, start) for r, start in zip((first, second), starts))
        if filled(first.n, index) and first.node(index)[0] == second.node(index)[0] and one != other:
            return ('collision', ('tree', index))
        if index % 2 == 0:
            starts = [start + r.node(index)[1] for r, start in zip((first, second), starts)]
    return ('equal',)


# ---- Together ----
def order(answer):
    """Refusals by their number, and of one number by their place; "done" comes last."""
    if answer[0] != 'refused':
        return (1, 0, 0)
    return (0, answer[1], answer[2][1] if answer[2] else 0)


def together(answers):
    return min(answers, key=order)


def cuts(random, count):
    """Ranges that cover the numbers below a count, in any order, some of them overlapping, empty or turned round; at least one."""
    at = sorted(random.randrange(count + 1) for _ in range(random.randrange(4)))
    ranges = [(a - random.randrange(min(a, 3) + 1), b + random.randrange(3)) for a, b in zip([0] + at, at + [count])]
    extra = random.choice(((0, 0), (count, count + 5), (2 ** 64 - 1, 0), (5, 2), (0, 2 ** 64 - 1)))
    ranges.append(extra)
    random.shuffle(ranges)
    return ranges
