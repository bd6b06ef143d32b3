#!/usr/bin/env python3
"""Counts the places in crates/*/src that the points of docs/DESIGN-PASS.md look for.

usage: python3 tools/design_places.py [--list] [POINT ..], from the top of a checkout; with --list the places too.
"""
import glob
import re
import sys

WORDS = re.compile(r'[A-Za-z_]\w*|\d[\w.]*|"(?:[^"\\]|\\.)*"|\S')
KEPT = set('fn let mut if else match for in while loop return as pub const struct enum impl true false u8 u16 u32 u64 usize bool Some None Ok Err'.split())


def sources():
    for path in sorted(glob.glob('crates/*/src/**/*.rt', recursive=True)):
        yield path, re.sub(r'^\s*//.*$', '', open(path).read(), flags=re.M)


def line_of(text, at):
    return text.count('\n', 0, at) + 1


def items(text, kind):
    # an item that begins at the margin, or in an impl, and ends with a brace under its first letter
    for m in re.finditer(r'^( *)(?:pub )?(?:extern "C" )?' + kind + r' (\w+)(.*?)^\1\}', text, re.M | re.S):
        yield m.start(), m.group(2), m.group(0)


def body_of(text):
    # what stands behind the signature and the clauses
    m = re.search(r'^ *\{\n(.*)', text, re.M | re.S)
    return m.group(1) if m else ''


def point1():
    """enums with a case for nothing or for a refusal, structs with an answer or a flag beside a value, numbers for kinds and refusals"""
    for path, text in sources():
        for at, name, item in items(text, 'enum'):
            if re.search(r'^ *(Refused|Bad|Absent|Nothing|Nowhere|Nobody|Done|Length|FirstRefused)\b', item, re.M):
                yield path, line_of(text, at), 'enum ' + name
        for at, name, item in items(text, 'struct'):
            if re.search(r'^ *(?:pub )?(answer|row|last|plain): |^ *(?:pub )?\w+: bool,', item, re.M):
                yield path, line_of(text, at), 'struct ' + name
            if re.search(r'^ *(?:pub )?(number|kind|word|given): u', item, re.M):
                yield path, line_of(text, at), 'a number for a kind in struct ' + name


def point2():
    """functions whose bodies differ only in names, numbers and types, each beyond the first of its kind"""
    seen = {}
    for path, text in sources():
        for at, name, item in items(text, 'fn'):
            body = body_of(item)
            words = [w if w in KEPT or not re.match(r'[A-Za-z_0-9"]', w) else ('0' if w[0].isdigit() else 'x') for w in WORDS.findall(body)]
            if len(words) >= 40:
                seen.setdefault(' '.join(words), []).append((path, line_of(text, at), 'fn ' + name))
    for places in seen.values():
        for place in places[1:]:
            yield place[0], place[1], place[2] + ' as ' + places[0][2] + ' of ' + places[0][0]


def point3():
    """loops with `while` and `loop`"""
    for path, text in sources():
        for m in re.finditer(r'^ *(while|loop)\b[^\n]*', text, re.M):
            yield path, line_of(text, m.start()), m.group(0).strip()


def point4():
    """functions whose whole body is a cast, a minimum, a sum or a comparison by hand, and loops that copy, compare or clear"""
    for path, text in sources():
        for at, name, item in items(text, 'fn'):
            body = body_of(item).strip().rstrip('}').strip()
            if re.fullmatch(r'\w+ as \w+|if (\w+) <=? (\w+) \{ \w+ \} else \{ \w+ \}|std::num::\w+\([^()]*\)', body):
                yield path, line_of(text, at), 'fn ' + name
            elif re.search(r'^ *while [^\n]*\{\n *(\w+)\[[^\n]*\] = (\w+\[[^\n]*\]|0);\n *\w+ \+= 1;\n *\}', body, re.M):
                yield path, line_of(text, at), 'a loop that copies in ' + name
            elif re.search(r'^ *if (\w+)\[\w+\] != (\w+\[\w+\]|0) \{\n *return false;', body, re.M):
                yield path, line_of(text, at), 'a loop that compares in ' + name


def point5():
    """functions that take tree, bitfield, content and n, one by one"""
    for path, text in sources():
        for at, name, item in items(text, 'fn'):
            head = item[:item.index(body_of(item))] if body_of(item) else item
            if all(re.search(r'\b[mc]?' + w + r'\d?: ', head) for w in ('tree', 'bitfield', 'n')) and re.search(r'\b([mc]?data|content): ', head):
                yield path, line_of(text, at), 'fn ' + name


def point6():
    """arrays with a count beside them, in structs and parameters"""
    for path, text in sources():
        for kind in ('struct', 'fn'):
            for at, name, item in items(text, kind):
                head = item if kind == 'struct' else item.split('\n{', 1)[0]
                if re.search(r'\b(count|up|others): (usize|u64|u32)', head) and re.search(r': \[\w+; \d+\]', head):
                    yield path, line_of(text, at), kind + ' ' + name


def point7():
    """matches on a number or a byte that say which step to run, with four arms or more"""
    for path, text in sources():
        for m in re.finditer(r'^( *)match [^\n]*\{\n((?:\1 +[^\n]*\n)*?)\1\}', text, re.M):
            if len(re.findall(r'^' + m.group(1) + r"    (?:\d+|b'.'|words::[A-Z_]+) => \w+[(:]", m.group(2), re.M)) >= 4:
                yield path, line_of(text, m.start()), m.group(0).split('\n')[0].strip()


def point8():
    """answers in proofs/"""
    for path in sorted(glob.glob('crates/*/proofs/**/Answers.antt', recursive=True)):
        for n, line in enumerate(open(path), 1):
            if re.match(r'pub \S+ : goal\.', line):
                yield path, n, line.split()[1]


POINTS = [point1, point2, point3, point4, point5, point6, point7, point8]


def main():
    words = [w for w in sys.argv[1:] if w != '--list']
    for number, point in enumerate(POINTS, 1):
        if words and str(number) not in words:
            continue
        places = sorted(set(point()))
        print('%d: %d %s' % (number, len(places), point.__doc__))
        if '--list' in sys.argv:
            for place in places:
                print('    %s:%d %s' % place)


main()
