"""A person's day: a folder of 5,000 files comes in, signed by openssl's Ed25519 through a signer that is started once. A sheet is printed, every signature is
checked by openssl under the public key, and the archive is held to the sheet. Two cutting rooms get copies for 40 pieces, with their names: one from the
archive itself, one by a file of packets under root hashes that have a good signature. The office adds 100 more and changes some, the copies grow, and take in
what was changed; everything comes out of all three again, and is the same.

usage: python3 tests/tool/day.py [FILES]

It is typed at a shell, as a person would: commands, files and a key of its own, no library of this repository.
"""

import os
import random
import re
import subprocess
import sys

from program import PROGRAM, TARGET, environment, expect, fresh, under

ROOM = os.path.join(TARGET, 'tests', 'tool', 'day')
SIGNER = '''while head -c 32 > root && test -s root; do
  openssl pkeyutl -sign -rawin -inkey maker.pem -in root
done
'''
VERIFY = 'head -c 32 > checked; cat > signature; openssl pkeyutl -verify -rawin -pubin -inkey maker.pub -in checked -sigfile signature'


def typed(line, status=0):
    """What a line prints, typed in the day's folder."""
    paths = os.path.dirname(PROGRAM) + os.pathsep + os.environ['PATH']
    ran = subprocess.run(['sh', '-c', line], cwd=ROOM, env=dict(environment(), PATH=paths), capture_output=True)
    expect(ran.returncode == status, 'another end of: ' + line, ran)
    return ran.stdout.decode()


def write(name, content):
    path = os.path.join(ROOM, name)
    os.makedirs(os.path.dirname(path), exist_ok=True)
    with open(path, 'wb') as file:
        file.write(content)


def signed_sets(count):
    """How many signatures of a register are no zeros, each good under the maker's key, and that the last is one."""
    good = 0
    for register in ('metadata', 'content'):
        with open(os.path.join(ROOM, 'coats', register + '.signatures'), 'rb') as file:
            stored = file.read()[32:]
        signatures = [stored[at:at + 64] for at in range(0, len(stored), 64)]
        own = [k for k, signature in enumerate(signatures, 1) if signature != bytes(64)]
        expect(own[-1] == len(signatures), 'the last chunk has no signature', register)
        for k in own if len(own) <= count else own[:count // 2] + own[-count // 2:]:
            write('signature', signatures[k - 1])
            write('root.old', bytes.fromhex(typed('sleep-archive root coats %s --first %d' % (register, k)).split()[1]))
            typed('openssl pkeyutl -verify -rawin -pubin -inkey maker.pub -in root.old -sigfile signature')
            good += 1
    return good


def main(files):
    rng = random.Random(7)
    fresh(ROOM)
    for k in range(files):
        size = rng.choice([0, 1, 200, 400, 900, 1500, 3000]) if k % 500 else rng.randrange(65537, 300000)
        write('patterns/%s/%05d.plt' % (rng.choice(['coat', 'skirt', 'skirt/lining', 'belt']), k), rng.randbytes(size))
    write('our-signer', SIGNER.encode())
    typed('openssl genpkey -algorithm ed25519 -out maker.pem')
    typed('openssl pkey -in maker.pem -pubout -out maker.pub')
    typed('openssl pkey -in maker.pem -pubout -outform DER | tail -c 32 > maker.key')
    typed('sleep-archive new coats --metadata-key maker.key --content-key maker.key')
    added = typed("sleep-archive add coats patterns --split 65536 --times --signer 'sh our-signer'")
    expect(typed('sleep-archive root coats') == added, 'other root hashes', added)
    expect(typed('sleep-archive audit coats').count('accepted') == 2, 'not accepted')
    expect(len(typed('sleep-archive list coats').splitlines()) == files, 'others are listed')
    out_again('morning', 'patterns')
    sheet = on_paper()
    coats = sorted(os.listdir(os.path.join(ROOM, 'patterns', 'coat')))[:40]
    names = ['/patterns/coat/' + name for name in coats]
    rooms(names)
    for k in range(100):
        write('patterns/coat/more/%05d.plt' % k, rng.randbytes(700))
    changed = ['/patterns/belt/' + name for name in sorted(os.listdir(os.path.join(ROOM, 'patterns', 'belt')))[:10]]
    for name in changed:
        write(name[1:], rng.randbytes(701))
    typed("sleep-archive add coats patterns --split 65536 --times --changed --signer 'sh our-signer'")
    expect(len(typed('sleep-archive list coats').splitlines()) == files + 100 and len(typed('sleep-archive list coats --all').splitlines()) == files + 110, 'others are added')
    follow(names, changed)
    typed('sh sheet.sh')
    expect(sheet == typed('sleep-archive root coats content --first %d' % sheet_chunks()).split()[1], 'another root hash than that of the sheet')
    expect('nothing is new' in typed("sleep-archive add coats patterns --split 65536 --changed --signer false 2>&1"), 'added again')
    out_again('evening', 'patterns')
    typed('sleep-archive export coats belts /patterns/belt')
    expect(under(os.path.join(ROOM, 'belts', 'patterns', 'belt')) == under(os.path.join(ROOM, 'patterns', 'belt')), 'another folder comes out')
    print('day: %d files and 110 more, %d signatures good under the key, held to a sheet, two copies for 40 pieces that followed, everything out again' % (files, signed_sets(20)))


def on_paper():
    """A sheet, every signature under the maker's key, and the archive held to the sheet by the commands that stand on it. The content's root hash of the sheet."""
    typed('sleep-archive sheet coats --date 2026-11-17 -o sheet.txt')
    verified = typed("sleep-archive verify coats --with '%s'" % VERIFY)
    expect(verified.count(' checked, ') == 2 and 'not good' not in verified, 'not verified', verified)
    with open(os.path.join(ROOM, 'sheet.txt')) as file:
        commands = re.findall(r"sleep-archive audit [^']*'[^']*'", file.read())
    expect(len(commands) == 2, 'no commands on the sheet', commands)
    write('sheet.sh', '\n'.join(['set -e', *commands, '']).encode())
    expect(typed('sh sheet.sh').count('is the one given') == 2, 'not held to the sheet')
    return next(''.join(command.split("'")[1].split()) for command in commands if ' content ' in command)


def sheet_chunks():
    with open(os.path.join(ROOM, 'sheet.sh')) as file:
        return int(re.search(r'content --first (\d+)', file.read())[1])


def rooms(names):
    """Copies for some pieces: of the archive itself, and by a file of packets."""
    typed('sleep-archive copy near --of coats --names ' + ' '.join(names))
    numbers = re.findall(r'(\d+) chunks?, (\d+) bytes', typed('sleep-archive status coats'))
    typed('sleep-archive copy far --metadata %s,%s --content %s,%s' % (*numbers[0], *numbers[1]))
    typed('sleep-archive packets make coats %s -o send.packets' % ' '.join(names))
    typed('sleep-archive packets take far send.packets', status=2)
    typed("sleep-archive packets take far send.packets --with '%s'" % VERIFY)
    for room in ('near', 'far'):
        held = typed('sleep-archive list %s 2> /dev/null | grep " held "' % room).splitlines()
        expect(sorted(line.split()[-1] for line in held) == sorted(names), 'others are held', room, held)


def follow(names, changed):
    """Both copies follow, and take in what was changed; what they have is what the office has."""
    were = [int(number) for number in re.findall(r'partial copy of (\d+) chunks', typed('sleep-archive status far'))]
    typed('sleep-archive packets make coats --since %d,%d -o growth.packets' % tuple(were))
    typed("sleep-archive grow far growth.packets --with '%s'" % VERIFY)
    typed('sleep-archive grow near --of coats')
    typed('sleep-archive packets make coats %s -o changed.packets' % ' '.join(changed))
    both = ' '.join(names + changed)
    typed('sleep-archive export coats office %s' % both)
    for room in ('near', 'far'):
        typed('sleep-archive packets take %s changed.packets' % room)
        expect(typed('sleep-archive root coats') == typed('sleep-archive root ' + room) and typed('sleep-archive audit ' + room).count('accepted') == 2, 'it does not follow', room)
        typed('sleep-archive export %s from-%s %s' % (room, room, both))
        expect(typed('diff -r office from-' + room) == '' and len(names + changed) == sum(len(files) for *_, files in os.walk(os.path.join(ROOM, 'from-' + room))), 'another folder', room)


def out_again(name, folder):
    """What comes out is the folder, with its times."""
    typed('sleep-archive export coats ' + name)
    typed('diff -r --no-dereference %s %s/%s' % (folder, name, folder))
    for above, _, names in os.walk(os.path.join(ROOM, folder)):
        for file in names:
            path = os.path.join(above, file)
            other = os.path.join(ROOM, name, os.path.relpath(path, ROOM))
            expect(os.stat(path).st_mtime_ns == os.stat(other).st_mtime_ns and os.stat(path).st_mode == os.stat(other).st_mode, 'another time or mode', path)


if __name__ == '__main__':
    main(int(sys.argv[1]) if len(sys.argv) > 1 else 5000)
