"""Who works on an archive when: readers and a waiting writer in turn, `--wait`, words for whoever waits, `hold`, two machines as two mounts of one folder,
and what the system may lack: /proc, room on the disk.

usage: python3 tests/tool/turns.py
"""

import fcntl
import os
import random
import resource
import shutil
import signal
import subprocess
import time

from program import KEPT, PROGRAM, TARGET, Ran, done, environment, expect, fresh, run, under

ROOM = os.path.join(TARGET, 'tests', 'tool', 'turns')


def place(name):
    return os.path.join(ROOM, name)


def begun(*words, program=PROGRAM, **named):
    return subprocess.Popen([program, *words], cwd=ROOM, env=environment(), stdout=subprocess.PIPE, stderr=subprocess.PIPE, **named)


def waits(process):
    """Waits until the process waits for a lock."""
    while process.poll() is None:
        with open('/proc/locks') as file:
            if any('->' in line and str(process.pid) in line.split() for line in file):
                return True
        time.sleep(0.01)
    return False


def ended(process):
    out, err = process.communicate()
    return Ran(process.returncode, out, err)


def holding(archive, *words):
    """A `hold` whose command says that it runs, and ends when its input does."""
    holder = begun('hold', archive, *words, 'sh', '-c', 'echo held; cat', stdin=subprocess.PIPE)
    expect(holder.stdout.readline() == b'held\n', 'not held', holder.poll())
    return holder


class Reading:
    """A reader that has begun, with the locks that it has then: the folder's, which older programs know, and that of content.tree."""

    def __init__(self, archive):
        self.handles = [os.open(place(name), os.O_RDONLY) for name in (archive, archive + '/content.tree')]
        for handle in self.handles:
            fcntl.flock(handle, fcntl.LOCK_SH | fcntl.LOCK_NB)

    def end(self):
        for handle in self.handles:
            os.close(handle)


def in_turn():
    """A writer waits for the reads that have begun, and later reads wait for it."""
    for _ in range(4):
        chunks = done('status', 'coats', cwd=ROOM).out
        first = Reading('coats')
        writer = begun('sign', 'coats', '--with', 'head -c 64 /dev/zero') if b'owed' in chunks else begun('add', 'coats', 'sleeve')
        expect(waits(writer), 'the writer does not wait')
        readers = [begun('status', 'coats') for _ in range(3)]
        expect(all(map(waits, readers)), 'a later reader overtakes the writer')
        expect(writer.poll() is None, 'the writer does not wait')
        first.end()
        expect(ended(writer).status == 0, 'not written')
        for reader in readers:
            ran = ended(reader)
            expect(ran.status == 0 and ran.out != chunks, 'a reader overtook the writer', ran)


def starving():
    """Loops of readers, one behind the other, do not keep a writer away: it is done while they go on."""
    loops = [subprocess.Popen(['sh', '-c', 'while "$0" list coats; do :; done', PROGRAM], cwd=ROOM, env=environment(), stdout=subprocess.DEVNULL, stderr=subprocess.DEVNULL,
                              start_new_session=True) for _ in range(3)]
    try:
        for _ in range(5):
            done('add', 'coats', 'sleeve', cwd=ROOM)
            done('sign', 'coats', '--with', 'head -c 64 /dev/zero', cwd=ROOM)
        expect(all(loop.poll() is None for loop in loops), 'a reader failed')
    finally:
        for loop in loops:
            os.killpg(loop.pid, signal.SIGKILL)
            loop.wait()


def patience():
    """Whoever waits says so, off a terminal too; --wait ends the waiting, and nothing is done then."""
    first = Reading('coats')
    writer = begun('add', 'coats', 'sleeve')
    expect(waits(writer), 'does not wait')
    os.set_blocking(writer.stderr.fileno(), False)
    expect(writer.stderr.readline() == b'sleep-archive: coats: another program uses it; waiting\n', 'nothing is said')
    before = under(place('coats'))
    for words in (['list', 'coats', '--wait', '0'], ['add', 'coats', 'sleeve', '--wait=0'], ['add', 'coats', 'sleeve', '--wait', '1'], ['status', 'coats', '--wait', '1']):
        ran = run(*words, cwd=ROOM)
        expect(ran.status == 2 and b'coats: another program uses it, and still does after %s s; nothing is done\n' % words[-1][-1].encode() in ran.err, 'waits on', words, ran)
        expect((b'waiting, at most 1 s' in ran.err) == (words[-1] == '1'), 'other words', ran)
    expect(under(place('coats')) == before, 'changed')
    patient = begun('status', 'coats', '--wait', '300')
    expect(b'waiting, at most 300 s' in patient.stderr.readline(), 'does not wait')
    first.end()
    os.set_blocking(writer.stderr.fileno(), True)
    expect(ended(writer).status == 0 and ended(patient).status == 0, 'not done')
    done('sign', 'coats', '--with', 'head -c 64 /dev/zero', cwd=ROOM)


def folders_lock():
    """A program that locks the folder alone, as older versions do, is waited for, and waits."""
    handle = os.open(place('coats'), os.O_RDONLY)
    for kind, words in ((fcntl.LOCK_EX, ['list', 'coats']), (fcntl.LOCK_SH, ['add', 'coats', 'sleeve'])):
        fcntl.flock(handle, kind)
        other = begun(*words)
        expect(waits(other), 'does not wait for the lock of a folder', words)
        fcntl.flock(handle, fcntl.LOCK_UN)
        expect(ended(other).status == 0, 'not done')
    holder = holding('coats')
    try:
        fcntl.flock(handle, fcntl.LOCK_EX | fcntl.LOCK_NB)
        expect(False, 'the folder is not locked')
    except BlockingIOError:
        pass
    fcntl.flock(handle, fcntl.LOCK_SH | fcntl.LOCK_NB)
    os.close(handle)
    holder.communicate()
    done('sign', 'coats', '--with', 'head -c 64 /dev/zero', cwd=ROOM)


def holds():
    """`hold` runs a command with its words as they are, gives its status, and lets readers in; the command itself reads, and changes nothing."""
    ran = run('hold', 'coats', 'sh', '-c', 'echo "$@"; exit 7', 'sh', '--wait', '-h', '--', 'a b', cwd=ROOM)
    expect((ran.status, ran.out) == (7, b'--wait -h -- a b\n'), 'another status, or other words', ran)
    ran = run('hold', 'coats', 'no-such-command', cwd=ROOM)
    expect(ran.status == 2 and b'no-such-command: no such file' in ran.err, 'not told', ran)
    ran = run('hold', '--wait', '1', 'sleeves', 'true', cwd=ROOM)
    expect(ran.status == 2 and b'sleeves' in ran.err, 'an archive of nothing is held', ran)
    holder = holding('coats')
    expect(done('list', 'coats', cwd=ROOM).status == 0, 'no reader is let in')
    writer = begun('add', 'coats', 'sleeve')
    expect(waits(writer), 'does not wait')
    holder.communicate()
    expect(ended(writer).status == 0, 'not done')
    holder = begun('hold', 'coats', 'sh', '-c', 'echo held; read go; "$0" list coats && "$0" audit coats && "$0" hold coats "$0" status coats', PROGRAM, stdin=subprocess.PIPE)
    expect(holder.stdout.readline() == b'held\n', 'not held')
    writer = begun('sign', 'coats', '--with', 'head -c 64 /dev/zero')
    expect(waits(writer), 'does not wait')
    out, err = holder.communicate(b'go\n')
    expect(holder.returncode == 0, 'a command under `hold` waits for a writer who waits for it', out, err)
    expect(ended(writer).status == 0, 'not done')
    ran = run('hold', 'coats', PROGRAM, 'add', 'coats', 'sleeve', cwd=ROOM)
    expect(ran.status == 2 and b'`hold` holds it for this command' in ran.err, 'waits for itself', ran)
    ran = run('compare', 'coats', 'coats', cwd=ROOM)
    expect(ran.status == 0, 'an archive is not compared with itself', ran)


def killed_holder():
    """What a command under `hold` started keeps the lock when the command is killed."""
    holder = subprocess.Popen(['sh', '-c', 'exec 3<&0; exec "$0" hold coats sh -c "cat <&3 & echo held; wait"', PROGRAM], cwd=ROOM, env=environment(), stdin=subprocess.PIPE,
                              stdout=subprocess.PIPE, stderr=subprocess.PIPE)
    expect(holder.stdout.readline() == b'held\n', 'not held')
    holder.kill()
    holder.wait()
    writer = begun('add', 'coats', 'sleeve')
    expect(waits(writer), 'the lock went with the command, and not with what it started')
    holder.stdin.close()
    expect(ended(writer).status == 0, 'not done')
    done('sign', 'coats', '--with', 'head -c 64 /dev/zero', cwd=ROOM)


def replaced():
    """While a program waits for the lock, the file that is locked is replaced by another: that one is locked then."""
    for name, words in (('metadata.tree', ['add', 'coats', 'sleeve']), ('content.tree', ['list', 'coats'])):
        handle = os.open(os.path.join(place('coats'), name), os.O_RDWR)
        fcntl.flock(handle, fcntl.LOCK_EX)
        other = begun(*words)
        expect(waits(other), 'does not wait')
        again = os.path.join(place('coats'), name)
        shutil.copy(again, again + '.own')
        os.rename(again + '.own', again)
        second = os.open(again, os.O_RDWR)
        fcntl.flock(second, fcntl.LOCK_EX)
        os.close(handle)
        expect(waits(other), 'another file is locked')
        os.close(second)
        expect(ended(other).status == 0, 'not done')
    done('sign', 'coats', '--with', 'head -c 64 /dev/zero', cwd=ROOM)


def two_makers():
    """Two programs make an archive in one folder at once, and each command that looks at it meanwhile sees an archive or none."""
    for _ in range(20):
        fresh(place('made'))
        makers = [begun('new', 'made') for _ in range(3)]
        lookers = [begun('status', 'made') for _ in range(2)]
        statuses = sorted(ended(maker).status for maker in makers)
        expect(statuses == [0, 2, 2], 'made twice, or not at all', statuses)
        expect(all(ended(looker).status in (0, 2) for looker in lookers), 'otherwise')
        expect(done('audit', 'made', cwd=ROOM).out.count(b'accepted') == 2, 'not accepted')


def mounts():
    """Two mounts of one folder by a file system that forwards the locks of files, as a network's does: programs on both add at once, and nothing is lost."""
    tool = shutil.which('bindfs')
    if not tool or not os.path.exists('/dev/fuse') or os.geteuid() != 0:
        return 'two mounts: left out, since bindfs (Debian\'s package) and /dev/fuse are not both there for this user'
    far = [fresh(place('far%d' % k)) for k in range(2)]
    fresh(place('shared'))
    mounted = []
    try:
        for folder in far:
            if subprocess.run([tool, '--enable-lock-forwarding', '--multithreaded', place('shared'), folder], capture_output=True).returncode:
                return 'two mounts: left out, since nothing can be mounted here'
            mounted.append(folder)
        done('new', os.path.join(far[0], 'coats'))
        for number in range(6):
            adding = [[begun('add', os.path.join(folder, 'coats'), '--as', '/%d-%d-%d' % (number, k, again), 'sleeve') for again in range(2)] for k, folder in enumerate(far)]
            ran = [ended(one) for some in adding for one in some]
            expect([one.status for one in ran].count(0) == 1, 'two added at once, or none', ran)
            expect(all(one.status == 0 or b'refused with 8' in one.err for one in ran), 'otherwise', ran)
            for folder in far:
                expect(done('audit', os.path.join(folder, 'coats')).out.count(b'content: accepted, %d chunk' % (number + 1)) == 1, 'not accepted')
            done('sign', os.path.join(far[number % 2], 'coats'), '--with', 'head -c 64 /dev/zero')
        holder = holding(os.path.join(far[0], 'coats'))
        expect(run('add', os.path.join(far[1], 'coats'), 'sleeve', '--wait', '1', cwd=ROOM).status == 2, 'the other mount does not wait')
        done('list', os.path.join(far[1], 'coats'))
        holder.communicate()
    finally:
        for folder in mounted:
            subprocess.run(['umount', folder])
    return 'two mounts of one folder: 24 adds at once on both, one done each time'


def apart(script, *words):
    """A shell script in mounts of its own, where this user may make such."""
    return subprocess.run(['unshare', '-m', 'sh', '-c', script, *words], capture_output=True, cwd=ROOM)


def without_proc():
    """Nothing needs /proc."""
    if os.geteuid() != 0:
        return 'without /proc: left out, since this user may not mount'
    script = 'mount -t tmpfs none /proc && "$0" list coats && "$0" add coats sleeve && "$0" sign coats --with "head -c 64 /dev/zero" && "$0" audit coats'
    ran = apart(script, PROGRAM)
    expect(ran.returncode == 0 and ran.stdout.count(b'accepted') == 2, 'needs /proc', ran)
    return 'without /proc: listed, added, signed, audited'


def full_disk():
    """A release on a disk that is really full, which the release before kept room for."""
    if os.geteuid() != 0:
        return 'a full disk: left out, since this user may not mount'
    script = '''set -e; mkdir -p disk; mount -t tmpfs -o size=2m none disk; "$0" new disk/coats; "$0" add disk/coats --as /a collar --as /b collar --as /c collar >disk/roots
        "$0" sign disk/coats --with "head -c 64 /dev/zero"; (dd if=/dev/zero of=disk/filled bs=4k 2>/dev/null; dd if=/dev/zero of=disk/filled2 bs=512 2>/dev/null) || :
        ! "$0" add disk/coats --as /d collar 2>disk.said; ! echo more > disk/more 2>/dev/null
        "$0" release disk/coats /b; "$0" release disk/coats 0; "$0" audit disk/coats; "$0" missing disk/coats; "$0" get disk/coats /c | cmp - collar'''
    ran = apart(script, PROGRAM)
    expect(ran.returncode == 0 and ran.stdout.endswith(b'0\n1\n'), 'no release on a full disk', ran)
    with open(place('disk.said'), 'rb') as file:
        said = file.read()
    expect(b'no space left on device; nothing is changed' in said and b'disk/coats/' in said, 'not told, or no file named', said)
    return 'a full disk: released'


def changed_meanwhile():
    """M3: a program that knows no lock changes the bytes of a piece between their hashing and their going out: what was hashed goes out."""
    for name in ('/sleeve', '0'):
        fresh(place('meanwhile'))
        done('new', 'meanwhile/coats', cwd=ROOM)
        done('add', 'meanwhile/coats', '--as', '/sleeve', 'collar', cwd=ROOM)
        os.mkfifo(place('meanwhile/out'))
        getting = begun('get', 'meanwhile/coats', name, '-o', 'meanwhile/out')
        opening = lambda: open('/proc/%d/syscall' % getting.pid).read().split()[0] == '257' and open('/proc/%d/wchan' % getting.pid).read() in ('wait_for_partner', 'fifo_open')
        while not opening():
            expect(getting.poll() is None, 'ended', getting.communicate() if getting.poll() is not None else None)
            time.sleep(0.01)
        with open(place('meanwhile/coats/content.data'), 'r+b') as file:
            file.write(b'other bytes')
        with open(place('meanwhile/out'), 'rb') as file:
            given = file.read()
        with open(place('collar'), 'rb') as file:
            expect(given == file.read() and getting.wait() == 0, 'what was hashed is not what goes out')


def seconds(*words):
    before = resource.getrusage(resource.RUSAGE_CHILDREN).ru_utime
    done(*words, cwd=ROOM)
    return resource.getrusage(resource.RUSAGE_CHILDREN).ru_utime - before


def many_names():
    """M10: many names are found by one walk: a release of 200 takes little more than finding one. On a full disk far more pieces than the room that is kept
    is for are not released, and the room stays."""
    done('new', 'many', cwd=ROOM)
    for number in range(32):
        some = range(255 * number, 255 * (number + 1))
        done('add', 'many', *[word for k in some for word in ('--as', '/%d' % k, 'label')], cwd=ROOM)
        done('sign', 'many', '--with', 'head -c 64 /dev/zero', cwd=ROOM)
    one = min(seconds('get', 'many', '/0') for _ in range(3))
    expect(seconds('release', 'many', *['/%d' % k for k in range(200)]) < 20 * one + 0.2, 'a walk for each name')
    expect(done('missing', 'many', cwd=ROOM).out.split() == [b'%d' % k for k in range(200)], 'others are released')
    ran = run('release', 'many', *map(str, range(201, 8160, 2)), cwd=ROOM, faults={'UNDER': place('many'), 'TIGHT': 1})
    expect(ran.status == 2 and b'the room that is kept is for fewer pieces at once; nothing is changed' in ran.err, 'not told', ran)
    expect(os.stat(os.path.join(place('many'), KEPT)).st_blocks * 512 >= 65536, 'the room is gone')
    shutil.rmtree(place('many'))


def damaged_record():
    """M6: one wrong byte in the newest record: the others are listed, and that one is marked."""
    done('new', 'damaged', cwd=ROOM)
    done('add', 'damaged', '--as', '/a', 'small', '--as', '/b', 'small', '--as', '/c', 'small', cwd=ROOM)
    data = place('damaged/metadata.data')
    content = bytearray(open(data, 'rb').read())
    content[-3] ^= 1
    open(data, 'wb').write(content)
    ran = run('list', 'damaged', cwd=ROOM)
    lines = ran.out.splitlines()
    expect(ran.status == 1 and [line.split()[-1] for line in lines[:2]] == [b'/a', b'/b'] and b'bad  record 3: refused with 10' in lines[2], 'not listed', ran)
    expect(b"1 record can't be read, marked above" in ran.err, 'not told', ran)


def main():
    rng = random.Random(5)
    fresh(ROOM)
    for name, size in (('sleeve', 5000), ('collar', 65536), ('label', 100), ('small', 3)):
        with open(place(name), 'wb') as file:
            file.write(rng.randbytes(size))
    done('new', 'coats', cwd=ROOM)
    done('add', 'coats', 'sleeve', cwd=ROOM)
    done('sign', 'coats', '--with', 'head -c 64 /dev/zero', cwd=ROOM)
    in_turn()
    starving()
    patience()
    folders_lock()
    holds()
    killed_holder()
    replaced()
    two_makers()
    changed_meanwhile()
    many_names()
    damaged_record()
    print('turns: readers and a waiting writer, waiting with words and a limit, `hold`, locks of files and of the folder, makers at once, bytes changed meanwhile, many names, a bad record')
    for said in (mounts(), without_proc(), full_disk()):
        print('turns: ' + said)


if __name__ == '__main__':
    main()
