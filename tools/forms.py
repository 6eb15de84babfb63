"""Counts the places in crates/*/src that are written in an older form, point by point as docs/DESIGN-PASS.md has them.

python3 tools/forms.py [--show POINT] [FOLDER]

Prints a line for each count: the point, how many places there are, and what was counted. With --show the places of a
point (1a, 3, ..) are named, a line each. FOLDER is another checkout, this one by default.
"""
import argparse
import glob
import os
import re

parser = argparse.ArgumentParser(description=__doc__, formatter_class=argparse.RawDescriptionHelpFormatter)
parser.add_argument('folder', nargs='?', default=os.path.join(os.path.dirname(os.path.abspath(__file__)), '..'))
parser.add_argument('--show', metavar='POINT', default='')
arguments = parser.parse_args()

FILES = {f: open(f, encoding='utf-8').read() for f in sorted(glob.glob(os.path.join(arguments.folder, 'crates/*/src/*.rt')))}
CODE = {f: '\n'.join(re.sub(r'^\s*//.*|\s//.*$', '', line) for line in text.split('\n')) for f, text in FILES.items()}


def told(f, at):
    """Crate, file and line of a place."""
    crate, file = f.split('/')[-3], f.split('/')[-1]
    return f'{crate}/{file}:{CODE[f].count(chr(10), 0, at) + 1}'


def found(pattern, flags=re.M):
    return [(told(f, m.start()), m.group(0).strip().split('\n')[0]) for f, text in CODE.items()
            for m in re.finditer(pattern, text, flags)]


def bodies(kind):
    """The fields or variants of every declared struct or enum."""
    return [(f, m) for f, text in CODE.items()
            for m in re.finditer(r'^(?:pub )?%s (\w+)[^{;(]*\{(.*?)^\}' % kind, text, re.M | re.S)]


def functions():
    return [(f, m) for f, text in CODE.items()
            for m in re.finditer(r'\bfn (\w+)(?:<[^>{]*>)?\(((?:[^()]|\([^()]*\))*)\)\s*(?:->\s*([^\n{]+))?', text)]


NONE = r'^    (?:Nothing|Nowhere|Absent|Other|Done|Refused\(Refusal\)),$'
KIND = r'\b(?:phase|op|placement|kind|form|map|role|power|bit|info\.several|\w+\.version|place|answer) (?:==|!=) \d+'
TWIN = r'\bfn (?:(?:small|large)_\w+|\w+_(?:small|large)|(?:zero|copy|same)_(?:bytes|words)|same_(?:control|setup|source)|' \
       r'(?:put|delete)_(?:any|at)|stage_(?:put|delete)(?:_at)?|tell_(?:station|centre)|(?:station|centre)(?:_by)?|' \
       r'fill_right|both|negate|blocks_of|is_put|points_to|points|twice|thrice|wide)(?=\(|<)'
HAND = r'\bfn (?:wide|same|same_\w+|lesser|swap|phase_of|is_free_role|is_data|is_role|is_store|is_refused|is_last|is_call|' \
       r'is_at_rest|is_read|closed_or|number|number_in|given|given_setup|one_less|read_word|store_word|bit_of|both|negate|is_zero|' \
       r'is_count|twice|thrice|five_times|seven_times|ten_times|digit|is_digit|is_letter|plus|one|two|three|four)(?=\(|<)'
GROUPS = {
    'control and setup': ('control: Control', 'setup: Setup'),
    'image, count and size': ('image: &[u8]', 'count: usize', 'size: Size'),
    'op, placement or version, and field of an entry': ('op: u64', 'field: u64'),
    'the range of classes': ('low: u64', 'high: u64'),
    'the table and whether the keys fit it': ('table: &[u64]', 'fits: bool'),
    'the hint': ('first: usize', 'least: usize'),
    'at and end of words': ('at: usize', 'end: usize'),
}
nested = [(told(f, m.start()), m.group(1).strip()) for f, text in CODE.items()
          for m in re.finditer(r'^([ ]*if [^\n]*\{)\n(?=[ ]*if [^\n]*\{$)', text, re.M)]
rebuilt = found(r'^\s+(\w+): \w+\.\1,$')
counts = [
    ('1a', 'own enums with a variant for nothing or for a refusal', found(NONE)),
    ('1b', 'flags in structs, with what they speak of beside them',
     [(told(f, m.start()), f'{m.group(1)}: {x}') for f, m in bodies('struct') for x in re.findall(r'(\w+): bool', m.group(2))]),
    ('1c', 'numbers for kinds, compared with literals', found(KIND)),
    ('1d', 'answers told by a number and through &mut u64',
     [(told(f, m.start()), m.group(1)) for f, m in functions() if '&mut u64' in m.group(2)]),
    ('2', 'functions whose names say that there is another for another type, size or constant', found(TWIN)),
    ('3', 'loops by hand: while and loop', found(r'^\s*(?:\'\w+: )?(?:while(?! let)|loop)\b.*')),
    ('4a', 'functions that compare, copy, convert or print by hand', found(HAND)),
    ('4b', 'fields copied one by one into a new struct', rebuilt),
    ('4c', 'wrapping sums through std::num', found(r'std::num::wrapping_\w+')),
    ('4d', 'tests inside tests that are one', nested),
] + [(f'5 {name}', 'functions with these parameters',
      [(told(f, m.start()), m.group(1)) for f, m in functions() if all(p in m.group(2) for p in some)])
     for name, some in GROUPS.items()] + [
    ('6', 'text with a length beside it',
     [(told(f, m.start()), m.group(1)) for f, m in functions() if 'out: &mut [u8]' in m.group(2) or 'text: &mut [u8]' in m.group(2)]),
    ('7', 'switches on what to run', found(r'match (?:phase|command|session::phase_of|Phase::from)\b.*')),
]
for point, what, places in counts:
    if not arguments.show:
        print(f'{point}: {len(places)} {what}')
    elif point == arguments.show or point.split(' ')[0] == arguments.show:
        for where, text in places:
            print(f'{point}  {where}  {text}')
