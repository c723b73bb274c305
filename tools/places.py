#!/usr/bin/env python3
"""Counts the places of docs/DESIGN-PASS.md in the sources: tools/places.py [-v] at the top of the repository.

A line for each kind of place, with -v each place too. It looks for what can be told by the text alone; whether a place
reads better in another form the page says.
"""
import collections
import glob
import re
import sys

FUNCTION = re.compile(r'\bfn (\w+)(?:<[^>]*>)?\(([^{]*?)\)\s*(?:->[^\n{]*)?[\n{]')
WORD = re.compile(r'[A-Za-z_]\w*|\d\w*')
KEEP = set('let mut if else while for in return fn pub match loop as self Self usize u64 u32 u16 u8 i32 bool'.split())

# Parameters that travel together: what each of them looks like in a signature.
TOGETHER = {
    'outline, masks, strips': [r': Outline', r'(satellites|masks): &', r'(strips|cells): &'],
    'ids, masks': [r'ids: &\[u8\]', r'(masks|satellites): &\[u64\]'],
    'bytes, end': [r'bytes: &\[u8\]', r'\bend: usize'],
    'line, at': [r'(line|out): &mut \[u8\]', r'\bat: usize'],
    'bytes, pen': [r'bytes: &(mut )?\[u8\]', r'pen: Pen'],
    'rows, count': [r'rows: &\[i32\]', r'count: usize'],
    'rows, from': [r'rows: &\[i32\]', r'\b(from|k|at): usize'],
    'streams, state, buffers': [r'streams: &mut', r'state: State'],
}


def sources():
    for path in sorted(glob.glob('crates/*/src/**/*.rt', recursive=True)):
        with open(path, encoding='utf-8') as file:
            yield path, re.sub(r'//.*', '', file.read())


def enums(text):
    """Own enums of two variants, of which at most one says more than a refusal: an Option or a Result."""
    for found in re.finditer(r'\benum (\w+) \{\n(.*?)\n\}', text, re.S):
        variants = [v.strip(' ,') for v in found.group(2).split('\n') if v.strip()]
        if len(variants) == 2:
            yield found.group(1)


def flags(text):
    """Structs that have a truth beside other fields."""
    for found in re.finditer(r'\bstruct (\w+)(?:<.*?>)? \{\n(.*?)\n\}', text, re.S):
        for flag in re.findall(r'(\w+): bool,', found.group(2)):
            yield f'{found.group(1)}.{flag}'


def functions(text):
    """Name, parameters and body of each function."""
    for here in FUNCTION.finditer(text):
        indent = re.search(r'^ *', text[text.rfind('\n', 0, here.start()) + 1:]).group(0)
        opening = r'\n' if here.group(0).endswith('{') else rf'.*?^{indent}\{{\n'
        body = re.compile(rf'{opening}(.*?)^{indent}\}}$', re.M | re.S).match(text, here.end())
        yield here.group(1), here.group(2), body.group(1) if body else ''


def shape(body):
    """A body without its names and numbers: the same for what differs in these alone."""
    names = {}
    return WORD.sub(lambda m: m.group(0) if m.group(0) in KEEP else f'#{names.setdefault(m.group(0), len(names))}', body)


def places():
    found = collections.defaultdict(list)
    bodies = collections.defaultdict(list)
    for path, text in sources():
        crate = path.split('/')[1]
        where = path.split('/', 1)[1].replace('/src/', '::', 1)
        found['1 enum of two variants'] += [f'{where} {name}' for name in enums(text)]
        found['1 struct with a truth'] += [f'{where} {name}' for name in flags(text)]
        for name, parameters, body in functions(text):
            here = f'{where} {name}'
            if body.count('\n') >= 3 and not crate.endswith('_c'):
                bodies[shape(body)].append(here)
            loops = re.findall(r'^\s*(while .*|loop) \{', body, re.M)
            found['3 while or loop'] += [f'{here}: {loop}' for loop in loops]
            found['4 equality by a loop'] += [here] * len(re.findall(r'while(?:.*\n)*?.*\w+\[\S+\] [!=]= \S+\[', body))
            for group, looks in TOGETHER.items():
                if all(re.search(look, parameters) for look in looks):
                    found[f'5 {group}'].append(here)
            if len(re.findall(r'\w+: ', parameters)) > 6:
                found['5 more than six parameters'].append(here)
            found['7 match over numbers'] += [here] * bool(re.search(r'match \w+ \{\n(?:\s*[A-Z0-9_]+ => .*\n){4}', body))
    found['2 functions alike but for names'] = [' = '.join(alike) for alike in bodies.values() if len(alike) > 1]
    return found


def main():
    found = places()
    for kind in sorted(found):
        print(f'{len(found[kind]):4} {kind}')
        if '-v' in sys.argv:
            for place in found[kind]:
                print(f'       {place}')


main()
