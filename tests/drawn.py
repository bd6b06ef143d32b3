#!/usr/bin/env python3
"""Draws sentences of CLAIMS for somebody who is given the names of the crates alone.

drawn.py SEED [--answers]: the crates, and twenty numbered sentences of 01 and 02 that a crate keeps; with --answers, the row and the crates that its "Kept by" names, for each.
"""
import random, re, sys, os
TOP = os.path.dirname(os.path.dirname(os.path.abspath(__file__)))
def rows(claims, crates):
    for line in claims.split('\n## More')[0].split('\n'):
        cells = [c.strip() for c in re.split(r'(?<!\\)\|', line)[1:-1]]
        if len(cells) == 4 and re.match(r'^[A-Z]+[0-9]', cells[0]) and '"' in cells[1]:
            kept = {word for word in re.findall(r'`([a-z0-9_]+)(?=/|::|`)', cells[2]) if word in crates}
            if kept: yield cells[0], cells[1], sorted(kept)
def main():
    top = os.environ.get('TOP', TOP)
    crates = sorted(os.listdir(top + '/crates'))
    drawn = random.Random(int(sys.argv[1])).sample(list(rows(open(top + '/docs/CLAIMS.md', encoding='utf-8').read(), set(crates))), 20)
    if '--answers' in sys.argv:
        for k, (name, _, kept) in enumerate(drawn, 1): print(k, name, ' '.join(kept))
        return
    print(' '.join(crates))
    for k, (_, sentence, _) in enumerate(drawn, 1): print('%d. %s' % (k, sentence))
main()
