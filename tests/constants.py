"""Compares the numbers that the header and the wrapper promise, and those that the listing program lends, with those that are proved: each is a
definition in specs/, which a proved statement names. The version stands in five places: the number that the call for it is proved to give, the header, the
wrapper, tools/Cargo.toml and the first row of docs/CHANGELOG.md.

usage: python3 tests/constants.py HEADER WRAPPER
"""

import re
import sys

# the header's name, what the wrapper has, the file of the definition and its name, and the file and name of the statement
PROMISED = [
    ('SLEEP_PACKET_EXTRA', r'const PACKET_EXTRA: usize = (\w+);', 'packet/specs/Packet', 'packet_extra', 'packet/specs/Theorems', 'PacketStaysShort'),
    ('SLEEP_NODE_ROOM', r'const NODE_ROOM: usize = (\w+);', 'record_node/specs/Theorems', 'node_room', 'record_node/specs/Theorems', 'RoomForAny'),
    ('SLEEP_TABLE_NUMBERS', r'numbers: \[u64; (\w+)\]', 'station_queue/specs/Words', 'table_words', 'station_queue/specs/Words', 'table_words'),
]

# what the listing program has, and the name of the definition in listing_lines/specs/Limits
LENT = [(r'let mut input = \[0u8; (\d+)\];', 'most_read'), (r'let mut out = \[0u8; (\d+)\];', 'most_listed')]


def defined(file, name):
    """The value of a definition that is a number, or sums and products of numbers."""
    text = open(f'crates/{file}.antt').read()
    found = re.findall(rf'^{name} = (.+)$', text, re.M)
    assert len(found) == 1 and re.fullmatch(r'[0-9+* ()]+', found[0]), f'{file}: {name} is no number'
    return eval(found[0])


def version(header, wrapper):
    """The version, by the number that the call for it is proved to give."""
    proved = defined('c_api/specs/Version', 'version')
    called = open('crates/c_api/src/version.rt').read()
    assert 'ensures { result ≡ version }' in called, 'the contract of sleep_flat_version names another number'
    found = {
        'the header': re.findall(r'^#define SLEEP_VERSION (\d+)u$', header, re.M),
        'the wrapper': re.findall(r'^pub const VERSION: u64 = (\d+);$', wrapper, re.M),
    }
    for where, numbers in found.items():
        assert numbers == [str(proved)], f'the version is {numbers} in {where}, and {proved} in c_api/specs/Version'
    told = f'{proved // 1000000}.{proved // 1000 % 1000}.{proved % 1000}'
    assert re.findall(r'^version = "(.*)"$', open('tools/Cargo.toml').read(), re.M) == [told], f'tools/Cargo.toml has another version than {told}'
    first = re.findall(r'^\| (\d+\.\d+) \|', open('docs/CHANGELOG.md').read(), re.M)[0]
    assert first + '.0' == told, f'the first row of docs/CHANGELOG.md is {first}, the version {told}'
    return told


def main(header, wrapper):
    header, wrapper = open(header).read(), open(wrapper).read()
    for macro, pattern, file, name, stated, statement in PROMISED:
        proved = defined(file, name)
        assert name in open(f'crates/{stated}.antt').read().split(statement, 1)[1], f'{stated}: {statement} does not name {name}'
        in_header = re.findall(rf'^#define {macro} (\d+)u$', header, re.M)
        assert in_header == [str(proved)], f'{macro} is {in_header} in the header, and {proved} in {file}'
        in_wrapper = set(re.findall(pattern, wrapper))
        assert in_wrapper == {str(proved)}, f'{macro} is {in_wrapper} in the wrapper, and {proved} in {file}'
    program = open('crates/listing_program/src/main.rt').read()
    for pattern, name in LENT:
        proved = defined('listing_lines/specs/Limits', name)
        assert re.findall(pattern, program) == [str(proved)], f'the listing program lends another number than {proved}, {name}'
    told = version(header, wrapper)
    print(f'constants: {len(PROMISED)} numbers of the header and the wrapper, and {len(LENT)} of the listing program, are those proved; version {told}')


main(*sys.argv[1:])
