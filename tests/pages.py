"""What the pages lead to is there: each link, each anchor, each path in backquotes, each name of the C library; README is a front page of at most
100 lines, and no line but those of CLAIMS, DECISIONS and the landings has more than 200 characters.

usage: python3 tests/pages.py ROOT
"""

import glob
import os
import re
import sys

LONG_LINES = {'CLAIMS.md', 'DECISIONS.md'}
FOLDERS = ('bench', 'bindings', 'crates', 'docs', 'examples', 'include', 'tests', 'tools')
MADE = ('target/',)  # made by a command that the page names


def anchors(text):
    """Of each heading, as a page in a browser has them."""
    return {re.sub(r'[^\w -]', '', heading.lower()).replace(' ', '-') for heading in re.findall(r'^#+ (.*)$', text, re.M)}


def links(path, text, root):
    for target in re.findall(r'\]\(([^)\s]+)\)', text):
        if re.match(r'\w+://', target):
            continue
        file, _, anchor = target.partition('#')
        there = os.path.normpath(os.path.join(os.path.dirname(path), file)) if file else path
        if not os.path.exists(there):
            yield 'no ' + target
        elif anchor and anchor not in anchors(open(there).read()):
            yield 'no heading ' + target


def paths(text, root):
    """Backquoted words that begin with a folder of the repository; `*` stands for anything, `..` and capital words for names that a reader puts in."""
    for word in re.findall(r'`([\w*./+-]+)`', text):
        if word.startswith(MADE) or not word.startswith(tuple(folder + '/' for folder in FOLDERS)) or '..' in word or re.search(r'/[A-Z]+(\.|/|-|$)', word):
            continue
        if not any(glob.glob(os.path.join(root, word + end)) for end in ('', '.antt', '.md')):
            yield 'no ' + word


def calls(text, header):
    for call in re.findall(r'`(sleep_[a-z_]+[a-z])`', text):
        if not re.search(r'\b%s\b' % call, header):
            yield 'no name ' + call


def main(root):
    wrong, pages = [], [os.path.join(root, 'README.md'), *sorted(glob.glob(os.path.join(root, 'docs', '*.md')))]
    with open(os.path.join(root, 'include', 'sleep_register.h')) as file:
        header = file.read()
    for path in pages:
        with open(path) as file:
            text = file.read()
        name = os.path.basename(path)
        long = [] if name in LONG_LINES else ['line %d has %d characters' % (k, len(line)) for k, line in enumerate(text.split('\n'), 1) if len(line) > 200]
        wrong += ['%s: %s' % (name, what) for what in [*links(path, text, root), *paths(text, root), *calls(text, header), *long]]
        if name == 'README.md' and text.count('\n') > 100:
            wrong.append('README.md has %d lines' % text.count('\n'))
    if wrong:
        raise SystemExit('the pages: ' + '; '.join(wrong))
    print('pages: %d, and what they lead to is there' % len(pages))


main(*sys.argv[1:])
