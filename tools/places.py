#!/usr/bin/env python3
"""Counts the places of src/ that an older form of the language shaped, point by point (docs/DESIGN-PASS.md), in a tree of crates.

places.py [TREE] [--list POINT]: TREE is a folder with crates/ (default: the checkout). --list prints each place of a point, as `1a`.
"""
import collections, glob, re, sys

args = [a for a in sys.argv[1:] if not a.startswith('--')]
point = args.pop() if '--list' in sys.argv else None
tree = args[0] if args else '.'
files = {f: open(f).read() for f in sorted(glob.glob(f'{tree}/crates/*/src/*.rt'))}
found = collections.defaultdict(list)


def add(name, file, at, text):
    line = files[file].count('\n', 0, at) + 1
    found[name].append(f"{file.removeprefix(tree + '/')}:{line}: {' '.join(text.split())[:120]}")


def each(name, pattern, flags=re.M):
    for file, text in files.items():
        for m in re.finditer(pattern, text, flags):
            add(name, file, m.start(), m[0])


# 1. Enums with a variant for a refusal or for nothing, refusals as numbers, and 0 for none.
for file, text in files.items():
    for m in re.finditer(r'^(?:pub )?enum (\w+)[^{]*\{(.*?)^\}', text, re.M | re.S):
        if re.search(r'^\s*(Refused|Nothing|Wrong|NoMore)\b', m[2], re.M): add('1a', file, m.start(), m[0])
each('1b', r'\brefused::[A-Z_]+')
each('1c', r'^[^/\n]*\brefusal\(')
# 2. Functions of one crate whose bodies are equal but for names, numbers and types.
bodies = collections.defaultdict(list)
for file, text in files.items():
    for m in re.finditer(r'^(?:    )?(?:pub )?fn (\w+).*?^(?:    )?\{\n(.*?)^(?:    )?\}', text, re.M | re.S):
        shape = re.sub(r'\b\w+\b', 'x', ' '.join(m[2].split()))
        if len(shape) > 60: bodies[shape].append((file, m.start(), m[1]))
for places in bodies.values():
    if len(places) > 1:
        for file, at, name in places: add('2', file, at, name)
# 3. Loops that count by hand, and loops over numbers whose body only looks a slice up at them.
each('3a', r'^\s*(while|loop)\b.*')
each('3b', r'^\s*for \w+ in [^{]*\.\.[^{]*')
each('3c', r'^\s*if [^{]*\{\n\s*if [^{]*\{\n')
# 4. What a derive or the library has.
each('4', r'^(?:pub )?fn (least|lesser|min\w*|max\w*|same_\w+|is_reading|clear|copy|all_zero)\b.*')
each('4', r'\.len\(\) == 0|\.len\(\) < 1\b')
# 5. Facts about a value in three contracts or more, by the definition that says it; and parameters that travel together.
where = collections.defaultdict(list)
for file, text in files.items():
    for m in re.finditer(r'requires\b[^{]*\{.*?\}\n', text, re.S):
        for f in set(re.findall(r'\b(Sized|InTable|Covered|Passable|Planned|Bounded|Bounds|Ranges|Digits)\b', m[0])): where[f].append((file, m.start()))
for f, places in where.items():
    if len(places) >= 3:
        for file, at in places: add('5a', file, at, f)
each('5b', r'\bfn \w+\([^)]*src: Source[^)]*block: &\[u8\][^)]*sheet: &\[u32\]', re.S)
each('5c', r'\bfn \w+\([^)]*rules: &\[u32\][^)]*edges: &\[u32\][^)]*index: &\[u32\]', re.S)
# 6. A slice with a length beside it.
each('6', r'\bfn \w+\([^)]*\w+: &(?:mut )?\[\w+\],\s*(?:n|count|nodes|size|numbers): (?:usize|u32)', re.S)
# 7. Tables of functions.
each('7', r'\bfn\(|\bdyn\b')
if point:
    print('\n'.join(found[point]))
else:
    for name in ('1a', '1b', '1c', '2', '3a', '3b', '3c', '4', '5a', '5b', '5c', '6', '7'):
        print(name, len(found[name]))
