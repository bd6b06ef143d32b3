"""The lines that README shows from C, from Rust and from Rattle: those of C and Rust are built over the library and run; of those in Rattle each call
exists and has as many parameters.

usage: python3 tests/snippets.py README.md
"""

import glob
import os
import re
import subprocess
import sys

ROOT = os.path.dirname(os.path.dirname(os.path.abspath(__file__)))
OUT = os.path.join(ROOT, 'target', 'tests')
RUST = '#[path = "%s/bindings/sleep_register.rs"]\nmod sleep_register;\nfn main() -> Result<(), sleep_register::Refusal> {\n%s\n' \
       'assert_eq!((piece, store.register().root_hash()?), (&b"coat"[..], root));\nOk(())\n}\n'
C_WORDS = ['gcc', '-std=c11', '-Wall', '-Wextra', '-Werror', '-I', ROOT + '/include']
RUST_WORDS = ['rustc', '-O', '--edition', '2021', '-L', 'native=' + ROOT + '/target/staticlib', '-l', 'static=c_api']


def shown(page, language):
    blocks = re.findall(r'^```%s\n(.*?)^```$' % language, page, re.M | re.S)
    assert len(blocks) == 1, 'lines in ' + language
    return blocks[0]


def built_and_run(words, source, text, *behind):
    path, program = os.path.join(OUT, source), os.path.join(OUT, source + '.run')
    with open(path, 'w') as file:
        file.write(text)
    subprocess.run([*words, '-o', program, path, *behind], check=True)
    subprocess.run([program], check=True)


def parameters(crate, name):
    """How many a public function has, from the crate's source."""
    for path in glob.glob(os.path.join(ROOT, 'crates', crate, 'src', '*.rt')):
        found = re.search(r'^pub fn %s(?:<[^>]*>)?\((.*?)\)\s*->' % name, open(path).read(), re.M | re.S)
        if found:
            return len([one for one in found.group(1).split(',') if one.strip()])
    raise SystemExit('no call %s::%s' % (crate, name))


def main(path):
    with open(path) as file:
        page = file.read()
    lines = shown(page, 'rattle').splitlines()
    calls = [found.groups() for found in (re.match(r'(?:let \w+ = )?(\w+)::(\w+)\((.*)\)\?;', line) for line in lines) if found]
    assert len(calls) == len(lines) == 5, 'calls in Rattle, each with its `?`'
    for crate, name, given in calls:
        assert len(given.split(',')) == parameters(crate, name), '%s::%s: as many arguments as parameters' % (crate, name)
    built_and_run(C_WORDS, 'shown.c', shown(page, 'c'), ROOT + '/target/staticlib/libc_api.a')
    built_and_run(RUST_WORDS, 'shown.rs', RUST % (ROOT, shown(page, 'rust')))
    print('%s: the lines in C and in Rust run, and %d calls in Rattle are there' % (os.path.basename(path), len(calls)))


main(*sys.argv[1:])
