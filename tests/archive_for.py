"""What tools/archive-for refuses: wrong words, another kit, compiler words and modules that it does not know. It must have made its module before.

usage: python3 tests/archive_for.py

The kept module and words are changed one at a time, and put back. Each change must be refused, and say why; no archive is left.
"""

import os
import subprocess
import sys
import tempfile

os.chdir(os.path.join(os.path.dirname(os.path.abspath(__file__)), '..'))
COMMAND, KEPT, ARCHIVE = 'tools/archive-for', 'target/module/', 'target/aarch64/libsleep_register.a'
AUDIT = 'define void @sleep_flat_audit(ptr noundef %a0, i64 noundef %a1,'

# What is changed in the module, and into what.
MODULES = {
    'other target features': ('"target-cpu"="x86-64"', '"target-cpu"="x86-64" "target-features"="+avx2"'),
    'another processor': ('"target-cpu"="x86-64"', '"target-cpu"="x86-64-v3"'),
    'a stack that is probed otherwise': ('"stack-probe-size"="3072"', '"stack-probe-size"="4096"'),
    'another triple': ('"x86_64-unknown-linux-gnu"', '"x86_64-unknown-freebsd"'),
    'inline assembly': ('  ret void\n', '  call void asm sideeffect "nop", ""()\n  ret void\n'),
    'assembly of the module': ('\ndefine ', '\nmodule asm "nop"\ndefine '),
    'an intrinsic of one processor': ('\ndeclare ', '\ndeclare void @llvm.x86.sse2.pause()\ndeclare '),
    'an answer by a hidden address': (AUDIT, AUDIT.replace('ptr noundef %a0', 'ptr noundef sret([24 x i8]) %a0')),
    'a struct by value': (AUDIT, AUDIT.replace('ptr noundef %a0', 'ptr noundef byval([24 x i8]) %a0')),
    'a parameter in a chosen register': (AUDIT, AUDIT.replace('i64 noundef %a1', 'i64 inreg noundef %a1')),
    'a narrower parameter': (AUDIT, AUDIT.replace('i64 noundef %a1', 'i32 noundef %a1')),
    'a variable': ('\ndefine ', '\n@counter = global i64 0\ndefine '),
    'a function from outside': ('\ndeclare ', '\ndeclare void @malloc()\ndeclare '),
}


def archive_for(*words, **more):
    return subprocess.run([COMMAND, *words], capture_output=True, text=True, env=dict(os.environ, **more))


def expect(what, run, status, words):
    if run.returncode != status or words not in run.stderr:
        raise SystemExit('archive-for, %s: status %d, said %r' % (what, run.returncode, run.stderr))


def changed(path, before, after, what, words):
    """A kept file with its first `before` changed."""
    held = open(path).read()
    if before not in held:
        raise SystemExit('archive-for, %s: there is nothing to change' % what)
    if os.path.exists(ARCHIVE):
        os.remove(ARCHIVE)
    try:
        open(path, 'w').write(held.replace(before, after, 1))
        expect(what, archive_for('aarch64'), 1, words)
    finally:
        open(path, 'w').write(held)
    if os.path.exists(ARCHIVE):
        raise SystemExit('archive-for, %s: it left an archive' % what)


def main():
    for words in ((), ('mips',), ('aarch64', 'riscv64'), ('',)):
        expect('words %r' % (words,), archive_for(*words), 2, 'usage: tools/archive-for ')
    with tempfile.TemporaryDirectory() as other:
        os.mkdir(other + '/bin')
        for path, text, mode in ((other + '/KIT-ID', 'another kit\n', 0o644), (other + '/bin/rt', '#!/bin/sh\nexit 1\n', 0o755)):
            open(path, 'w').write(text)
            os.chmod(path, mode)
        path = other + '/bin:' + os.environ['PATH']
        expect('another kit', archive_for('aarch64', PATH=path), 1, 'is another than the one whose words are known')
    for what, (before, after) in MODULES.items():
        changed(KEPT + 'module.ll', before, after, what, 'the module has a line that is not known here')
    changed(KEPT + 'words', '-O3\n', '-O3\n-ffast-math\n', 'other compiler words', 'words that are not known here')
    expect('the module as it was', archive_for('aarch64'), 0, '')
    print('archive-for: refuses 4 wrong uses, another kit, other compiler words and %d modules' % len(MODULES))


if __name__ == '__main__':
    sys.exit(main())
