"""Holds the archive to what include/sleep_register.h says of it: its size, no static data, what it needs from outside, and its calls.

usage: python3 tests/archive.py ARCHIVE HEADER [TARGET]       x86-64 unless told otherwise
"""

import re
import subprocess
import sys

NEEDED = {'memcpy', 'memset', 'memmove', 'memcmp'}


def printed(*command):
    return subprocess.run(command, check=True, capture_output=True, text=True).stdout


def sections(archive):
    """Name, flags and size of each section."""
    row = re.compile(r'^\s*\[ *\d+\] (.*?)\s+[A-Z]\w+\s+[0-9a-f]{8,16} [0-9a-f]{6,} ([0-9a-f]+) [0-9a-f]+\s+([A-Za-z]*)\s+\d+\s+\d+\s+\d+$', re.M)
    return [(name, flags, int(size, 16)) for name, size, flags in row.findall(printed('readelf', '-SW', archive))]


def symbols(archive):
    """The names that the archive needs, and those that it gives."""
    named = re.findall(r'^ +\d+: [0-9a-f]{8,16} +\d+ \w+ +(?:GLOBAL|WEAK) +\w+ .*?(\w+) (\S+)$', printed('readelf', '-sW', archive), re.M)
    return {name for section, name in named if section == 'UND'}, {name for section, name in named if section != 'UND'}


def main(archive, header, target='x86-64'):
    text = open(header).read()
    most = int(re.search(r'in bytes:[^.]*?\s%s ([\d,]+)' % target, text).group(1).replace(',', ''))
    loaded = [row for row in sections(archive) if 'A' in row[1]]
    held = sum(size for name, flags, size in loaded)
    calls = set(re.findall(r'^(?:void|uint64_t) (sleep_flat_\w+)\(', text, re.M))
    inline = re.findall(r'^static inline \w+ sleep_(\w+)\([^{]*\{\n(.*?)^\}', text, re.M | re.S)
    fronts = {'sleep_flat_' + name for name, body in inline if 'sleep_flat_%s(' % name in body}
    stacks = {'sleep_flat_' + name.lower() for name in re.findall(r'^#define SLEEP_STACK_(\w+) \d+u$', text, re.M)}
    needs, gives = symbols(archive)
    wrong = [
        not 0 < held <= most and 'it has %d bytes, and %d are stated' % (held, most),
        [row for row in loaded if 'W' in row[1] and row[2]] and 'it has static data',
        needs - NEEDED and 'it needs %s' % sorted(needs - NEEDED),
        gives != calls and 'its symbols are not the calls of the header: %s' % sorted(gives ^ calls),
        not calls == fronts == stacks and 'a call has no front or no stated stack: %s' % sorted((calls ^ fronts) | (calls ^ stacks)),
    ]
    if any(wrong):
        raise SystemExit('the archive: ' + '; '.join(filter(None, wrong)))
    print('archive: %d calls, %d bytes of code and constants, no static data, needs %s' % (len(calls), held, ' and '.join(sorted(needs))))


main(*sys.argv[1:])
