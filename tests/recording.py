"""Records random calls with what the library answers here, for tests/calls.c to make them again on another processor.

usage: python3 tests/recording.py LIBRARY HEADER CALLS ANSWERS [COUNT [SEED]]

The calls are those of the four differential tests, on registers and copies of up to 40 chunks, each held against the model as it is made. CALLS gets
each call with all that is lent to it, ANSWERS what the library answers and what every buffer holds afterwards, in the form that tests/calls.c reads and
writes: numbers have 8 bytes, the highest first. A call is its name and a zero byte, the count of its words, and the words: `n` and a number; `b`, a length
and as many bytes; `w`, a count and as many numbers. An answer is its numbers, and for each buffer a byte 0 where it is as it was, or a byte 1 and its
content. Every call of the header is made.
"""

import re
import sys

import differential
import differential_copies
import differential_journal
import differential_records
from lent import NUMBER, Buffer, Library


def kinds_of(header):
    """For each call, whether each pointer among its parameters is of bytes or of numbers."""
    text = re.sub(r'/\*.*?\*/', '', open(header).read(), flags=re.S).replace('\\\n', ' ')
    macros = dict(re.findall(r'^#define (SLEEP_FLAT_\w+)\s+(.*)$', text, re.M))
    kinds = {}
    for name, words in re.findall(r'^\w+ sleep_flat_(\w+)\(([^()]*)\) SLEEP_NOT_NULL;', text, re.M):
        for macro, meant in macros.items():
            words = re.sub(r'\b%s\b' % macro, lambda found: meant, words)
        kinds[name] = ['b' if 'uint8_t' in word else 'w' for word in words.split(',') if '*' in word or '[' in word]
    return kinds


def number(value):
    return (value % 2 ** 64).to_bytes(8, 'big')


def content(kind, held):
    """Bytes as they are; numbers from this machine's order to the file's."""
    if kind == 'b' or sys.byteorder == 'big':
        return held
    return b''.join(held[at:at + 8][::-1] for at in range(0, len(held), 8))


class Recorder(Library):
    def __init__(self, path, header, calls, answers):
        super().__init__(path)
        self.kinds, self.calls, self.answers, self.made = kinds_of(header), calls, answers, {}

    def call(self, name, given, gives=3):
        kinds = iter(self.kinds[name])
        words, lent = [], []
        for one in given:
            if isinstance(one, Buffer):
                kind, held = next(kinds), one.held()
                words.append(kind.encode() + number(len(held) // (1 if kind == 'b' else 8)) + content(kind, held))
                lent.append((one, kind, held))
            else:
                words.append(b'n' + number(one))
        said = super().call(name, given, gives)
        self.calls.write(name.encode() + b'\0' + number(len(words)) + b''.join(words))
        self.answers.write(content('w', said))
        for one, kind, held in lent:
            self.answers.write(b'\0' if one.held() == held else b'\1' + content(kind, one.held()))
        self.made[name] = self.made.get(name, 0) + 1
        return said


def main(path, header, calls, answers, count=20000, seed=20170901):
    count, seed = int(count), int(seed)
    with open(calls, 'wb') as asked, open(answers, 'wb') as told:
        library = Recorder(path, header, asked, told)
        on_copies = {name for name in library.kinds if name.startswith('copy_')} | set(differential_copies.OWN)
        on_journals = {name for name in library.kinds if name.startswith('journal_')}
        on_records = {'write_header', 'write_node', 'read_header', 'read_node', 'header_of', 'node_of', 'find'}
        made = lambda: sum(library.made.values())
        lacks = lambda names: names - library.made.keys()
        run = differential.Run(library, seed)
        while made() < count // 2 or lacks(library.kinds.keys() - on_copies - on_records - on_journals):
            run.life(10 ** 9)
        run = differential_records.Records(library, seed)
        while made() < count * 7 // 10 or lacks(on_records):
            run.lent_bytes()
            run.in_register()
        run = differential_copies.Copies(library, seed)
        while made() < count * 9 // 10 or lacks(on_copies):
            run.life()
        run = differential_journal.Journals(library, seed)
        while made() < count or lacks(on_journals):
            run.life()
        print('recorded: seed %d, %d calls that agree with the model, the fewest of %s'
              % (seed, made(), min((number, name) for name, number in library.made.items())[::-1]))


if __name__ == '__main__':
    main(*sys.argv[1:])
