"""The program on large archives, timed: added in sets, audited, one piece read by number and by name. Not a part of tests/run; no time is asserted.

usage: python3 tests/tool/scale.py PIECES BYTES [FOLDER]

PIECES pieces of BYTES bytes each, in sets of 255 and then of 256, each set signed. Prints the wall time and the peak memory of the commands; the peak counts the
pages of mapped files that a command came to, which the system takes back when it needs them. Syncs wait for the disk here.
"""

import os
import random
import subprocess
import sys
import time

from program import FAULTS, PROGRAM, TARGET, fresh

PEAK = os.path.join(TARGET, 'tests', 'tool', 'peak')


def timed(*words):
    """Wall time in seconds and peak memory in MiB of one command."""
    environment = dict(os.environ, LD_PRELOAD=FAULTS, FAULTS_PEAK=PEAK)
    begun = time.monotonic()
    subprocess.run([PROGRAM, *words], stdout=subprocess.DEVNULL, check=True, env=environment)
    taken = time.monotonic() - begun
    with open(PEAK) as file:
        return taken, int(file.read()) / 1024


class Sum:
    """Times added up, and the highest peak."""

    def __init__(self):
        self.count, self.time, self.longest, self.peak = 0, 0, 0, 0

    def add(self, measured):
        self.count, self.time = self.count + 1, self.time + measured[0]
        self.longest, self.peak = max(self.longest, measured[0]), max(self.peak, measured[1])

    def __str__(self):
        return '%d commands, %.1f s, %.1f ms each, the longest %.0f ms; peak %.1f MiB' % (self.count, self.time, 1000 * self.time / self.count, 1000 * self.longest, self.peak)


def main(pieces, size, folder):
    rng, adding, signing, done = random.Random(1), Sum(), Sum(), 0
    fresh(folder)
    archive, inputs = os.path.join(folder, 'archive'), fresh(os.path.join(folder, 'inputs'))
    files = [os.path.join(inputs, str(k)) for k in range(256)]
    timed('new', archive)
    while done < pieces:
        count = min(pieces - done, 256 if done else 255)
        words = []
        for k in range(count):
            with open(files[k], 'wb') as file:
                file.write(rng.randbytes(size))
            words += ['--as', '/coat/%d' % (done + k), files[k]]
        adding.add(timed('add', archive, *words))
        signing.add(timed('sign', archive, '--with', 'cat; cat /dev/zero | head -c 32'))
        done += count
    print('%d pieces of %d bytes' % (pieces, size))
    print('add: %s' % adding)
    print('sign: %s' % signing)
    for what, words in (('audit', ['audit', archive]), ('get by number, first', ['get', archive, '0']), ('get by number, middle', ['get', archive, str(pieces // 2)]),
                        ('get by number, last', ['get', archive, str(pieces - 1)]), ('get by name, the last added', ['get', archive, '/coat/%d' % (pieces - 1)]),
                        ('get by name, the middle', ['get', archive, '/coat/%d' % (pieces // 2)]), ('get by name, the first added', ['get', archive, '/coat/0']), ('list', ['list', archive]),
                        ('root', ['root', archive]), ('status', ['status', archive])):
        measured = min(timed(*words) for _ in range(1 if what == 'audit' else 3))
        print('%s: %.1f ms, peak %.1f MiB' % (what, 1000 * measured[0], measured[1]))


if __name__ == '__main__':
    main(int(sys.argv[1]), int(sys.argv[2]), *(sys.argv[3:4] or [os.path.join(TARGET, 'tests', 'tool', 'scale')]))
