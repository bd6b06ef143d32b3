"""Holds the table of stacks in docs/FIGURES.md to the header: each call stands in it once, in a row of the bound that the header states, with no more than that
measured. With --table, prints that table from what tests/stack.c printed.

usage: python3 tests/figures.py docs/FIGURES.md include/sleep_register.h
       target/tests/stack | python3 tests/figures.py --table
"""

import itertools
import re
import sys

IN_A_ROW = 6


def table(printed):
    """Rows of at most some calls, by the bound that they have."""
    calls = [(int(most), name, int(taken)) for name, taken, most in re.findall(r'^sleep_(\w+) +(\d+) of +(\d+) bytes of stack$', printed, re.M)]
    for most, group in itertools.groupby(sorted(calls, key=lambda call: call[0]), key=lambda call: call[0]):
        shown = ['`%s` %s' % (name, format(taken, ',')) for _, name, taken in group]
        for at in range(0, len(shown), IN_A_ROW):
            print('| %s | %s |' % (format(most, ','), ', '.join(shown[at:at + IN_A_ROW])))


def number(digits):
    return int(digits.replace(',', ''))


def main(path, header):
    stated = {name.lower(): int(bound) for name, bound in re.findall(r'^#define SLEEP_STACK_(\w+) (\d+)u$', open(header).read(), re.M)}
    rows = re.search(r'^\| Stated \| Calls.*\n\|---\|---\|\n((?:\|.*\n)+)', open(path).read(), re.M).group(1)
    found = {}
    for bound, calls in re.findall(r'^\| ([\d,]+) \| (.*) \|$', rows, re.M):
        for name, taken in re.findall(r'`(\w+)` ([\d,]*\d)', calls):
            assert name not in found, 'twice: ' + name
            assert number(taken) <= number(bound), '%s takes more than stated' % name
            found[name] = number(bound)
    assert found == stated, 'the header states others: %s' % sorted(set(found.items()) ^ set(stated.items()))
    print('figures: the stack of %d calls, as the header states it' % len(found))


if sys.argv[1:] == ['--table']:
    table(sys.stdin.read())
else:
    main(*sys.argv[1:])
