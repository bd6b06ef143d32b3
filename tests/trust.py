"""Holds docs/TRUST.md to what `rt` prints: the kit's identity, the logic's sum in each verdict, and the functions of C that each program assumes.

usage: python3 tests/trust.py docs/TRUST.md LOGS ROOT; LOGS is the folder with a NAME.out for each crate that tests/run has checked: of `rt lib` for c_api,
of `rt check --list-axioms`, which names every function of C, for the programs
"""

import glob
import os
import re
import subprocess
import sys

ALWAYS = {'c_api', 'listing_program'}  # the others where they are there


def stated(page):
    """The functions of C that the table names, by crate."""
    rows = re.search(r'^\| Crates \| Assumed of C \|\n\|---\|---\|\n((?:\|.*\n)+)', page, re.M).group(1)
    found = {}
    for names, functions in re.findall(r'^\| (.*?) \| (.*?) \|$', rows, re.M):
        if not names.startswith('every library'):
            found.update({name: set(re.findall(r'`(\S+)`', functions)) for name in re.findall(r'`(\w+)`', names)})
    return found


def main(path, logs, root):
    page = open(path).read()
    kit = subprocess.run(['rt', 'version'], check=True, capture_output=True, text=True).stdout.strip()
    outputs = {os.path.basename(file)[:-4]: open(file).read() for file in glob.glob(os.path.join(logs, '*.out'))}
    listed = {line.split(':')[0].split()[0] for line in open(os.path.join(root, 'crates.txt')) if ':' in line and not line.startswith('#')}
    outputs = {name: text for name, text in outputs.items() if name in listed and 'logic=proved' in text}
    assumed, wrong = stated(page), []
    if '\n    %s\n' % kit not in page:
        wrong.append('rt version says: ' + kit)
    if not ALWAYS <= set(outputs):
        wrong.append('no verdict of ' + ', '.join(sorted(ALWAYS - set(outputs))))
    for name, text in sorted(outputs.items()):
        verdict = re.findall(r'^logic=proved.*$', text, re.M)[-1]  # those before it are of the libraries that were built for it
        words = dict(word.split('=') for word in verdict.split())
        reached = set(re.findall(r'^  (\S+) +reached$', text, re.M))
        if (words['sum'], words['native']) != (kit.split()[-1], 'nat,char,string') or int(words.get('axioms', 0)) != len(reached):
            wrong.append('%s: %s' % (name, words))
        if name == 'c_api' and '\n    %s\n' % verdict not in page:
            wrong.append('the verdict of c_api is: ' + verdict)
        if reached != assumed.get(name, set()):
            wrong.append('%s assumes %s' % (name, sorted(reached)))
    if assumed.keys() - listed:
        wrong.append('no crates: ' + ', '.join(sorted(assumed.keys() - listed)))
    if wrong:
        raise SystemExit('TRUST says another thing: ' + '; '.join(wrong))
    print('trust: %d verdicts, one logic, and what the page says is assumed of C' % len(outputs))


main(*sys.argv[1:])
