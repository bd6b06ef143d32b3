"""Counts what makes proofs hard to read, and fails where one of the counts is above its bound: imported names that nothing uses, lines above 200 characters,
chains of `.before` above two outside a `let` that names a place, laws that are stated in two or more crates. The bounds are what is there; whoever
mends a place lowers them.

usage: python3 tests/house.py [--list], from the top; with --list the places too.

A law is compared up to the names that it binds. An operator, as ◌+◌, is used where its parts stand in the file, so a few that are not used are not seen.
"""

import collections
import os
import re
import sys

BOUNDS = {'unused': 0, 'long': 0, 'chains': 63, 'twice': 35}
KINDS = ('src', 'specs', 'proofs')
LONGEST = 200
TOKEN = re.compile(r"[A-Za-z_][\w'·-]*|[^\sA-Za-z_]")
IMPORTS = re.compile(r'^(?:ghost )*use [^{;\n]*\.\{([^}]*)\};?$', re.M)
NAMED = re.compile(r"^\s*let [\w'-]+ = [\w'-]+(?:\.before)+ in$")
OF_A_FUNCTION = {'Proof.antt', 'Invariants.antt', 'Answers.antt'}  # in proofs/F; in proofs/ itself a file of that name has laws


def files():
    """The path and the text of every file of Rattle and antt below crates/*/src, specs and proofs."""
    for folder, _, names in sorted(os.walk('crates')):
        for name in sorted(names):
            path = os.path.join(folder, name)
            parts = path.split(os.sep)
            if len(parts) > 3 and parts[2] in KINDS and name.endswith(('.rt', '.antt')):
                with open(path, encoding='utf-8') as file:
                    yield path, file.read()


def stands(name, text):
    """Whether a name, or each part of an operator, stands in a text."""
    parts = [part for part in name.split('◌') if part]
    return all(re.search(r"(?<![\w·'])" + re.escape(part) + r"(?![\w'])", text) if re.match(r'\w', part) else part in text for part in parts)


def unused(path, text):
    for use in IMPORTS.finditer(text):
        rest = re.sub(r'^\s*(?:--|//).*$', '', text[: use.start()] + text[use.end():], flags=re.M)
        for name in use.group(1).split(','):
            known_as = name.split(' as ')[-1].strip()
            if known_as and not stands(known_as, rest):
                yield '%s: %s' % (path, known_as)


def long(path, text):
    # `rt fmt` lays out an attribute in one line, however many lemmas it names.
    for number, line in enumerate(text.split('\n'), 1):
        if len(line) > LONGEST and not line.lstrip().startswith(('//', '--', '#[tactic(')):
            yield '%s:%d: %d characters' % (path, number, len(line))


def chains(path, text):
    for number, line in enumerate(text.split('\n'), 1):
        if not NAMED.match(line):
            for _ in re.finditer(r'(?:\.before){3,}', line):
                yield '%s:%d' % (path, number)


def shape(statement):
    """A statement with v0, v1, .. for the names that it binds."""
    bound = {}
    for group in re.finditer(r'[({]\s*([^(){}:]+?)\s*:', statement):
        for name in group.group(1).split():
            bound.setdefault(name, 'v%d' % len(bound))
    return ' '.join(bound.get(token, token) for token in TOKEN.findall(statement))


def laws(path, text):
    """Each law of a file: its shape, and where it stands."""
    lines, at, head = text.split('\n'), 0, ''
    while at < len(lines):
        line = lines[at]
        section = re.match(r'(?:pub )?module _ (.*) where', line)
        if section:
            head = section.group(1)
        elif line and not line[0].isspace() and not line.startswith('--'):
            head = ''
        law = re.match(r"(\s*)(?:pub )?(?:law |lemma |unfoldable |abbrev )*([a-z][\w'-]*) : (.*)", line)
        behind = at + 1
        if law:
            said = law.group(3)
            while behind < len(lines) and lines[behind].startswith(law.group(1) + '    '):
                said += ' ' + lines[behind].strip()
                behind += 1
            if len(said) > 20:
                yield shape((head + ' → ' if law.group(1) and head else '') + said), '%s:%d %s' % (path, at + 1, law.group(2))
        at = behind


def twice(texts):
    seen = collections.defaultdict(list)
    for path, text in texts:
        parts = path.split(os.sep)
        if parts[2] == 'proofs' and (len(parts) == 4 or parts[-1] not in OF_A_FUNCTION):
            for said, place in laws(path, text):
                seen[said].append(place)
    for places in seen.values():
        if len({place.split(os.sep)[1] for place in places}) > 1:
            yield '; '.join(places)


def main():
    texts = list(files())
    found = {'unused': [one for path, text in texts for one in unused(path, text)],
             'long': [one for path, text in texts for one in long(path, text)],
             'chains': [one for path, text in texts if path.split(os.sep)[2] == 'proofs' for one in chains(path, text)],
             'twice': list(twice(texts))}
    if '--list' in sys.argv:
        for kind, places in found.items():
            for place in places:
                print('%s: %s' % (kind, place))
    print('house: %d imported names unused, %d lines above %d characters, %d chains of .before above two, %d laws in two or more crates'
          % (len(found['unused']), len(found['long']), LONGEST, len(found['chains']), len(found['twice'])))
    above = ['%s (%d, at most %d)' % (kind, len(found[kind]), BOUNDS[kind]) for kind in BOUNDS if len(found[kind]) > BOUNDS[kind]]
    if above:
        raise SystemExit('house: more than there was: ' + ', '.join(above))


main()
