#!/usr/bin/env python3
"""The tables of docs/FORMAT.md against tests/model: sizes, header, directory and entry words, blocks, and a commit.

tests/format_doc.py [FILE]      docs/FORMAT.md; ends with 1 and says each number that is not the model's
"""
import os
import re
import sys

HERE = os.path.dirname(os.path.abspath(__file__))
sys.dont_write_bytecode = True
sys.path.insert(0, os.path.join(HERE, 'model'))
import register_model as model  # noqa: E402

page = sys.argv[1] if len(sys.argv) > 1 else os.path.join(HERE, '..', 'docs', 'FORMAT.md')
wrong, compared = [], 0


def tables(path):
    """For each heading its tables: lists of rows, each a list of cells, without the head and its rule."""
    found, title, rows = {}, None, None
    with open(path, encoding='utf-8') as lines:
        for line in lines:
            if line.startswith('## '):
                title, rows = line[3:].split(':')[0].split(',')[0].strip(), None
                found[title] = []
            elif line.startswith('|') and title:
                cells = [c.strip() for c in line.strip().strip('|').split('|')]
                if rows is None:
                    rows = []
                    found[title].append(rows)
                rows.append(cells)
            else:
                rows = None
    return {t: [r[2:] for r in all_rows] for t, all_rows in found.items()}


def hold(what, said, right):
    global compared
    compared += 1
    if said != right:
        wrong.append(f'{what}: the page says {said}, the model {right}')


def number(cell):
    return int(cell, 0)


def numbers(cell):
    return [int(x) for x in re.findall(r'\d+', cell)]


T = tables(page)
geometry, large = model.GEOMETRY[12], model.GEOMETRY[16]
rules = model.Model({11})

# Sizes.
words = {'word': 1, 'line': model.LINE_WORDS, 'unit': geometry.words // geometry.units, 'chunk': geometry.words, 'large chunk': large.words}
hold('sizes', [r[0] for r in T['Sizes'][0]], list(words))
for name, in_bytes, in_words, in_chunk, in_large in T['Sizes'][0]:
    w = words[name]
    hold(f'size of a {name}', [number(in_bytes), number(in_words)], [8 * w, w])
    if name != 'large chunk':
        hold(f'{name}s in a chunk', number(in_chunk), geometry.words // w)
    if name != 'chunk':
        hold(f'{name}s in a large chunk', number(in_large), large.words // w)
hold('lines of a chunk', [geometry.lines, large.lines], [geometry.words // words['line'], large.words // words['line']])
hold('units of a chunk', large.units, large.words // words['unit'])

# The header, as a formatting writes it.
for column, (chunks, station, centre, power) in ((2, (4, None, None, 12)), (3, (16, 7, 9, 12)), (4, (8, None, 9, 16))):
    said = [number(r[column]) for r in T['Header line'][0]]
    image, s = model.Image([0] * (model.GEOMETRY[power].words * chunks)), model.Station(rules)
    s.format(image, station, centre, power)
    model.run(s, image)
    hold(f'header of {chunks} chunks', said, list(image[:8]))
hold('header words', [number(r[0]) for r in T['Header line'][0]], list(range(8)))

# The directory.
roles = {'free': (0, 0), 'log': (1, 2), 'data': (2, 3)}
for name, low, middle, high, example, word in T['Directory'][0]:
    role, argument = roles[name]
    hold(f'role {name}', number(low), role)
    hold(f'bits 2 to 7 of {name}', number(middle), 0)
    hold(f'word of {name}', model.BASE.role(number(word), geometry), (role, argument))
    if role == 1:
        hold('committed lines', numbers(high), [1])
    if role:
        hold(f'example of {name}', numbers(example), [argument])

# Entries.
fields, examples = T['Entries']
spans = {r[0]: numbers(r[1]) for r in fields}
for name, (first, last) in spans.items():
    size = last - first + 1
    part = {'operation': 0, 'placement': 1, 'version': 2, 'field': 3}[name]
    full = [0, 0, 0, 0]
    full[part] = (1 << size) - 1
    hold(f'bits of {name}', ((1 << size) - 1) << first, model.first_word(*full))
values = {r[0]: numbers(r[2]) for r in fields}
hold('versions', values['version'], [1, model.MAX_VERSION])
hold('lengths in the log', values['field'][:2], [0, 256])
parts = {
    'put, version 1, 5 bytes': model.Item(7, 1, 1, value=bytes(5)),
    'put, version 1, empty': model.Item(7, 1, 1, value=b''),
    'delete, version 2': model.Item(7, 2, 2),
    'put, version 1, in the block at chunk 3, unit 0': model.Item(7, 1, 1, pointer=3 * geometry.units),
}
hold('examples of entries', [r[0] for r in examples], list(parts))
for name, first, length in examples:
    hold(name, [number(first), number(length)], [parts[name].words()[0], len(parts[name].words())])

# Blocks.
said = [[number(c) for c in r] for r in T['Blocks'][0]]
right, least = [], 257
for size in geometry.sizes:
    most = max(n for n in range(257, geometry.limit + 1) if geometry.block_size(n) == size)
    right.append([size, geometry.units // size, least, most])
    least = most + 1
hold('blocks', said, right)

# The commit, action by action.
image, s = model.Image([0] * 2048), model.Station()
s.format(image)
model.run(s, image)
s.open(image, 8192)
for key, value in ((7, b'A+ 45'), (9, b'')):
    s.stage(image, key, value)
    model.run(s, image)
count = s.commit(image)
right = []
for i in range(count):
    report = s.step(image)
    at = {'store': 'word', 'flush': 'line', 'fence': None}[report[0]]
    value = report[2] if report[0] == 'store' else None
    right.append([i + 1, report[0], f'{at} {report[1]}' if at else '', value])
hold('the end of the commit', s.step(image), ('end',))
said = [[number(r[0]), r[1], r[2], number(r[3]) if r[3] else None] for r in T['One commit'][0]]
hold('the commit', said, right)

for w in wrong:
    print(f'format_doc: {w}', file=sys.stderr)
if wrong:
    sys.exit(1)
assert compared >= 25, f'only {compared} comparisons: the page has lost its tables'
print(f'format_doc: {compared} comparisons, the page says what the model says')
