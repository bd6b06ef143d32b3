"""Sets the ELF flag of the double-float ABI in the objects of an archive for riscv64, in place, so that a C library of that ABI links with them.

usage: python3 tests/float_flag.py ARCHIVE

No code changes. It is right only where no floating-point number crosses the boundary, which tests/boundary.py holds.
"""

import sys

DOUBLE_FLOAT = 4


def main(path):
    held = bytearray(open(path, 'rb').read())
    at = held.find(b'\x7fELF')
    if at < 0:
        raise SystemExit('%s has no object' % path)
    while at >= 0:
        if held[at + 48] & 6 != 0:
            raise SystemExit('an object of %s is not of the soft-float ABI' % path)
        held[at + 48] |= DOUBLE_FLOAT
        at = held.find(b'\x7fELF', at + 1)
    open(path, 'wb').write(held)


main(*sys.argv[1:])
