"""The sessions of the pages, typed again: every line behind a dollar sign prints what its page shows. A page is typed from top to bottom in an
empty folder; blocks marked `long` are left out.

usage: python3 tests/tool/readme.py PAGE..
"""

import os
import subprocess
import sys

from program import PROGRAM, TARGET, environment, expect, fresh


def session(page):
    """The lines typed, each with the lines printed."""
    typed, inside, left_out, printed = [], False, False, None
    for line in page.splitlines():
        if line.startswith('```'):
            inside, left_out, printed = not inside, line[3:].strip() == 'long', None
        elif inside and not left_out and line.startswith('$ '):
            printed = []
            typed.append((line[2:], printed))
        elif inside and printed is not None:
            printed.append(line)
    return typed


def type_again(path):
    with open(path) as file:
        typed = session(file.read())
    folder = fresh(os.path.join(TARGET, 'tests', 'tool', 'readme'))
    paths = os.path.dirname(PROGRAM) + os.pathsep + os.environ['PATH']
    for line, printed in typed:
        ran = subprocess.run(['sh', '-c', line], cwd=folder, env=dict(environment(), PATH=paths), stdout=subprocess.PIPE, stderr=subprocess.STDOUT)
        expect(ran.returncode == 0 and ran.stdout.decode().splitlines() == printed, '%s shows another answer to: %s' % (path, line), ran)
    expect(len(typed) > 5, path + ' has no session')
    print('%s: %d lines typed again, with the same answers' % (path, len(typed)))


if __name__ == '__main__':
    os.umask(0o022)  # the pages' files have the mode 644, which their records hold
    for page in sys.argv[1:]:
        type_again(page)
