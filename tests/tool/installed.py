"""What `make -C tools install` lays down, used as whoever installed it would: the program, its manual page, what shells complete, and the library for C.

usage: python3 tests/tool/installed.py
"""

import os
import re
import shutil
import subprocess

from program import TARGET, expect, fresh, under, version

TOP = os.path.dirname(TARGET)
ROOM = os.path.join(TARGET, 'tests', 'tool', 'installed')
PREFIX = '/opt/woxarteni'
FILES = ['bin/sleep-archive', 'share/man/man1/sleep-archive.1', 'share/bash-completion/completions/sleep-archive', 'share/zsh/site-functions/_sleep-archive',
         'include/sleep_register.h', 'lib/libsleep_register.a', 'lib/pkgconfig/sleep_register.pc']


def ran(*words, **named):
    done = subprocess.run(words, capture_output=True, text=True, **named)
    expect(done.returncode == 0, 'not done: %r' % (words,), done)
    return done.stdout


def make(goal, *words):
    return ran('make', '-s', '-C', os.path.join(TOP, 'tools'), goal, *words)


def place(file):
    return os.path.join(ROOM, PREFIX.lstrip('/'), file)


def left_out(program):
    """Whether a program that a check needs is not there; said, so that nobody takes it for checked."""
    if shutil.which(program) is None:
        print('installed: %s is not there, and what needs it is left out' % program)
        return True
    return False


def commands():
    page = ran(place('bin/sleep-archive'), '--help')
    return sorted({line.split()[1] for line in page.splitlines() if line.startswith('  sleep-archive ')})


def the_program():
    expect(ran(place('bin/sleep-archive'), '--version') == 'sleep-archive %s\n' % version(), 'another version')
    expect(len(commands()) > 20, 'few commands', commands())


def manual():
    """Every word of the help, in its order, and nothing that troff warns of."""
    if left_out('groff'):
        return
    source = place('share/man/man1/sleep-archive.1')
    checked = subprocess.run(['groff', '-man', '-ww', '-Tutf8', '-rLL=200n', source], capture_output=True, text=True)
    expect(checked.returncode == 0 and not checked.stderr, 'troff warns', checked.stderr)
    text = re.sub('\x1b\\[[0-9;]*m|.\x08', '', checked.stdout)
    words, shown = ran(place('bin/sleep-archive'), '--help').split(), text.split()
    at = 0
    for word in words[2:]:
        expect(word in shown[at:], 'not in the manual page, or not in its place: ' + word, ' '.join(shown[at:at + 20]))
        at = shown.index(word, at) + 1
    for heading in ('NAME', 'SYNOPSIS', 'DESCRIPTION', 'COMMANDS', 'NOTES', 'EXIT STATUS'):
        expect('\n%s\n' % heading in '\n' + text, 'no heading ' + heading)
    expect('sleep-archive %s' % version() in text, 'no version')


def completed(shell, *words):
    """What bash offers for the last of these words."""
    script = '. "$0"; COMP_WORDS=("$@"); COMP_CWORD=$(($# - 1)); _sleep_archive; printf "%s\\n" "${COMPREPLY[@]}"'
    return ran(shell, '-c', script, place('share/bash-completion/completions/sleep-archive'), *words).split()


def bash():
    if left_out('bash'):
        return
    offered = completed('bash', 'sleep-archive', '')
    expect(sorted(set(offered) - {'help', '--help', '-h', '--version'}) == commands(), 'other commands', offered)
    expect(completed('bash', 'sleep-archive', 'rel') == ['release'] and completed('bash', 'sleep-archive', 'help', 'une') == [], 'other words')
    expect(completed('bash', 'sleep-archive', 'packet', 't') == ['take'] and completed('bash', 'sleep-archive', 'root', 'coats', 'c') == ['content'], 'other words')
    expect(completed('bash', 'sleep-archive', 'get', 'coats', '') == [], 'files are not left to bash')
    for command in commands():
        for option in completed('bash', 'sleep-archive', command, '-'):
            answer = subprocess.run([place('bin/sleep-archive'), command, option], capture_output=True, text=True, stdin=subprocess.DEVNULL, cwd=ROOM)
            expect('no option' not in answer.stderr, 'an option that is none: %s %s' % (command, option), answer)


def zsh():
    """The file is a function of zsh that is made without complaint, and offers what bash does."""
    if left_out('zsh'):
        return
    script = 'compadd() { shift; print -l -- "$@" }; _files() { print files }; words=("${@:2}"); CURRENT=$(($# - 1)); PREFIX=${@[-1]}; source $1'
    offered = lambda *words: ran('zsh', '-f', '-c', script, 'zsh', place('share/zsh/site-functions/_sleep-archive'), *words).split()
    expect(sorted(set(offered('sleep-archive', '')) - {'help', '--help', '-h', '--version'}) == commands(), 'other commands')
    expect(offered('sleep-archive', 'packet', '') == ['make', 'take', 'check', 'compare'], 'other words')
    expect(offered('sleep-archive', 'get', 'coats', '') == ['files'], 'no files')
    for command in commands():
        expect(offered('sleep-archive', command, '-') == completed('bash', 'sleep-archive', command, '-'), 'other options than for bash', command)


def library():
    """A program in C finds the header and the archive by pkg-config alone."""
    if left_out('pkg-config') or left_out('cc'):
        return
    environment = dict(os.environ, PKG_CONFIG_PATH=place('lib/pkgconfig'), PKG_CONFIG_SYSROOT_DIR=ROOM)
    package = lambda *words: ran('pkg-config', *words, 'sleep_register', env=environment).split()
    expect(package('--modversion') == [version()], 'another version')
    source = os.path.join(ROOM, 'piece.c')
    with open(source, 'w') as file:
        file.write('#include <sleep_register.h>\n#include <stdio.h>\nint main(void) { uint8_t d[64]; return sleep_hash(32, d, 0, d, 0, d) != 0 || printf("%02x%02x", d[0], d[1]) != 4; }\n')
    ran('cc', '-o', os.path.join(ROOM, 'piece'), source, *package('--cflags', '--libs'))
    expect(ran(os.path.join(ROOM, 'piece')) == '0e57', 'another hash of nothing')


def main():
    fresh(ROOM)
    make('install', 'DESTDIR=' + ROOM, 'PREFIX=' + PREFIX)
    laid = sorted(name for name, found in under(ROOM).items() if found is not None)
    expect(laid == sorted(os.path.join(PREFIX.lstrip('/'), file) for file in FILES), 'other files', laid)
    the_program()
    manual()
    bash()
    zsh()
    library()
    make('uninstall', 'DESTDIR=' + ROOM, 'PREFIX=' + PREFIX)
    expect(not any(os.path.exists(place(file)) for file in FILES), 'not uninstalled')
    print('installed: the program, its manual page with every word of the help, what bash and zsh complete, and the library found by pkg-config')


if __name__ == '__main__':
    main()
