"""Holds the boundary between C and the library to addresses and 64-bit numbers alone, with at most one 64-bit number back: no struct and no narrower number goes in
or out by value. Reads it off the header's declarations, off the module that the compiler lowers the proved library to, and off the wrapper for Rust; the three
must have the same calls with the same parameters.

usage: python3 tests/boundary.py HEADER MODULE WRAPPER       MODULE is LLVM's text, target/module/module.ll of tools/archive-for
"""

import re
import sys

NUMBER, ADDRESS = 'number', 'address'
OF_C = {'uint64_t': NUMBER, 'uint64_t *': ADDRESS, 'const uint64_t *': ADDRESS, 'uint8_t *': ADDRESS, 'const uint8_t *': ADDRESS}
OF_RUST = {'u64': NUMBER, 'In': ADDRESS, 'Out': ADDRESS, '*mut u64': ADDRESS, '*const u64': ADDRESS}


def refuse(where, what):
    raise SystemExit('the boundary: %s: %s' % (where, what))


def word_of_c(where, parameter):
    """A parameter `type name` or `type name[count]`, the latter being an address."""
    found = re.fullmatch(r'((?:const )?\w+) (\*?)\w+(\[\w+\])?', parameter.strip())
    word = found and OF_C.get(found.group(1) + (' *' if found.group(2) or found.group(3) else ''))
    return word or refuse(where, 'the header has the parameter `%s`' % parameter)


def of_header(text):
    """The declarations, with the macros that stand for parameters written out."""
    text = re.sub(r'/\*.*?\*/', '', text, flags=re.S).replace('\\\n', ' ')
    macros = dict(re.findall(r'^#define (SLEEP_FLAT_\w+)\s+(.*)$', text, re.M))
    calls = {}
    for result, name, words in re.findall(r'^(\w[\w ]*?\*?) ?\b(sleep_\w+)\(([^()]*)\)[^;{]*;', text, re.M):
        for macro, meant in macros.items():
            words = re.sub(r'\b%s\b' % macro, lambda found: meant, words)
        if result not in ('void', 'uint64_t'):
            refuse(name, 'the header has the result `%s`' % result)
        words = [] if words.strip() == 'void' else re.sub(r'\s+', ' ', words).split(',')
        calls[name] = [word_of_c(name, word) for word in words], result != 'void'
    return calls


def of_module(text):
    """The functions that the module gives."""
    calls = {}
    for line in re.findall(r'^define .*$', text, re.M):
        if line.startswith('define internal '):
            continue
        found = re.fullmatch(r'define (?:noundef )?(\w+) @(\w+)\((.*)\) #\d+ \{', line)
        if not found:
            refuse('a function', 'the module has `%s`' % line)
        result, name, words = found.groups()
        kinds = []
        for word in words.split(', ') if words else []:
            kind = re.fullmatch(r'(ptr|i64) noundef %\w+', word)
            kinds.append({'ptr': ADDRESS, 'i64': NUMBER}[kind.group(1)] if kind else refuse(name, 'the module has the parameter `%s`' % word))
        if result not in ('void', 'i64'):
            refuse(name, 'the module has the result `%s`' % result)
        calls[name] = kinds, result == 'i64'
    return calls


def of_wrapper(text):
    """The functions that the wrapper declares."""
    block = re.search(r'^extern "C" \{\n(.*?)^\}', text, re.M | re.S).group(1)
    calls = {}
    for name, words, result in re.findall(r'fn (\w+)\((.*?)\)( -> \w+)?;', block, re.S):
        kinds = []
        for word in re.sub(r'\s+', ' ', words).split(', ') if words else []:
            kind = word.split(': ', 1)[1]
            array = re.fullmatch(r'&(mut )?\[u64; \d+\]', kind)
            kinds.append(ADDRESS if array else OF_RUST.get(kind) or refuse(name, 'the wrapper has the parameter `%s`' % word))
        if result not in ('', ' -> u64'):
            refuse(name, 'the wrapper has the result `%s`' % result)
        calls[name] = kinds, bool(result)
    return calls


def main(header, module, wrapper):
    found = {where: read(open(path).read()) for where, path, read in
             (('header', header, of_header), ('module', module, of_module), ('wrapper', wrapper, of_wrapper))}
    calls = found['module']
    if not calls:
        refuse('the module', 'it gives no function')
    for where, others in found.items():
        for name in sorted(calls.keys() | others.keys()):
            if calls.get(name) != others.get(name):
                refuse(name, 'the module has %s, the %s %s' % (calls.get(name), where, others.get(name)))
    numbers = sum(kinds.count(NUMBER) for kinds, _ in calls.values())
    print('boundary: %d calls, %d addresses and %d 64-bit numbers go in, one number comes back of %d: the same in header, module and wrapper'
          % (len(calls), sum(len(kinds) for kinds, _ in calls.values()) - numbers, numbers, sum(back for _, back in calls.values())))


if __name__ == '__main__':
    main(*sys.argv[1:])
