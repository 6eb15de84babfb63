#!/usr/bin/env python3
"""The names and paths that the documents cite are in the tree, and each rule's number stands at its definition.

tests/doc_names.py [FILE..]     README.md, HACKING.md, docs/*.md and docs/landings/*.md; says each that is missing, and
                                ends with 1
tests/doc_names.py --mark       writes the rules' numbers at the definitions anew, as docs/RULES.md has them
tests/doc_names.py --unmark     takes them out: a patch made without the numbers goes in between --unmark and --mark

Looked up, in backquotes: `crate::function` in src/lib.rt or src/main.rt of that crate; `crate::module::function` in its
src/module.rt; `Module.name` in crates/spec/specs; `crate.Module` and `crate.Module.name` in the specs or proofs of that
crate, and `Rattle.crate.specs.Module.name` or `.proofs.` as the code cites it; paths below crates, tests, docs, host,
include, tools, bench, .ci. So are links. A crate that crates.txt does not have is missing too, and so is one of
crates.txt that the table of rooms in docs/ARCHITECTURE.md lacks. A paragraph behind `<!-- archive -->` or
`<!-- list -->` speaks of what is to come and is passed over; behind `<!-- names of that time -->` only links are looked
up, to the end of the file.

The rules' numbers, where docs/RULES.md is among the files. In crates/spec/specs they stand on a comment line of their
own, rising, directly above the line that declares the name and below any other comment: `-- R52`, `-- R8, R9`. The line
that declares is the signature; of a record or a data type its first line; of a field or a constructor its own line.
Asked, both ways:
- each `Module.name` in the column `definition` of a rule's row is declared in crates/spec/specs and has its number;
- each number there is that of a row whose column `definition` names what is declared below it.
Beside that: each rule has one row, in a table with that column; no number stands at no definition, or in a comment of
another form. What a row names in other crates (`crate.Module.name`) has no numbers and is looked up as a name alone.
"""
import collections
import glob
import os
import re
import sys

os.chdir(os.path.join(os.path.dirname(os.path.abspath(__file__)), '..'))
RULES, ROOMS, SPECS = 'docs/RULES.md', 'docs/ARCHITECTURE.md', 'crates/spec/specs'
NUMBERS = re.compile(r'\s*-- (R\d+(?:, R\d+)*)')
BEFORE = r'\s*(?:(?:abbrev|unfoldable|pub|record|data|ruleset) )*'
DECLARES = re.compile(BEFORE + r'(?P<name>\w[^\s(){}]*)(?: [({].*[)}])? :(?:\s|$)')
TOPS = ('crates', 'tests', 'docs', 'host', 'include', 'tools', 'bench', '.ci')
with open('crates.txt', encoding='utf-8') as lines:
    CRATES = {line.split(':')[0].split()[0] for line in lines if ':' in line and not line.startswith('#')}


def read(path):
    with open(path, encoding='utf-8') as text:
        return text.read()


def has_function(crate, modules, name):
    files = [f for f in (f'crates/{crate}/src/{m}.rt' for m in modules) if os.path.exists(f)]
    return any(re.search(rf'\bfn {re.escape(name)}\b', read(f)) for f in files)


def has_name(module, name):
    """A definition, record, constructor or field of that name begins a line of the module."""
    begins = rf'^{BEFORE}{re.escape(name)}(?=[\s:({{])'
    return any(re.search(begins, read(f), re.M) for f in module)


def module_of(crate, module):
    return [f for part in ('specs', 'proofs') for f in [f'crates/{crate}/{part}/{module}.antt'] if os.path.exists(f)]


def missing(token):
    """What is wrong with a token in backquotes, or None."""
    m = re.fullmatch(r'([a-z]\w*)::(?:(\w+)::)?(\w+)', token)
    if m and m[1] not in ('crate', 'std'):
        if m[1] not in CRATES:
            return 'no such crate'
        if not m[2] and os.path.exists(f'crates/{m[1]}/src/{m[3]}.rt'):
            return None
        return None if has_function(m[1], [m[2]] if m[2] else ['lib', 'main'], m[3]) else 'no such function or module'
    m = re.fullmatch(r'Rattle\.([a-z_]+)\.(specs|proofs)\.([A-Z]\w*)(?:\.(\S+))?', token)
    if m:
        file = f'crates/{m[1]}/{m[2]}/{m[3]}.antt'
        if m[1] not in CRATES or not os.path.exists(file):
            return 'no such module'
        return None if m[4] is None or has_name([file], m[4]) else 'no such name in the module'
    m = re.fullmatch(r'([a-z_]+)\.([A-Z]\w*)(?:\.(\S+))?', token)
    if m and m[1] != 'crate':
        if m[1] not in CRATES:
            return 'no such crate'
        files = module_of(m[1], m[2])
        if not files:
            return 'no such module'
        return None if m[3] is None or has_name(files, m[3]) else 'no such name in the module'
    m = re.fullmatch(r'([A-Z]\w*)\.([^\s.]+)', token)
    if m and os.path.exists(f'crates/spec/specs/{m[1]}.antt'):
        return None if has_name([f'crates/spec/specs/{m[1]}.antt'], m[2]) else 'no such name in the definitions'
    if re.fullmatch(r'[\w.-]+(?:/[\w.-]+)+/?', token) and token.split('/')[0] in TOPS:
        if 'NAME' in token or 'CRATE' in token or '/build/' in token or token.startswith('host/build'):
            return None
        return None if os.path.exists(token) else 'no such file'
    return None


def rule_rows():
    """Each rule's row: its line, the rule, the definitions it names as (module, name), None without that column."""
    column, width = None, 0
    for number, line in enumerate(read(RULES).split('\n'), 1):
        cells = [cell.strip() for cell in line.split('|')][1:-1]
        if not cells:
            column = None
        elif 'definition' in cells:
            column, width = cells.index('definition'), len(cells)
        elif re.fullmatch(r'R\d+', cells[0]):
            named = None
            if column is not None and len(cells) == width:
                tokens = re.findall(r'`([^`]+)`', cells[column])
                named = [tuple(token.split('.')) for token in tokens if re.fullmatch(r'[A-Z]\w*\.[^\s.]+', token)]
            yield number, cells[0], named


def rules_of():
    """For each definition, the rules whose rows name it."""
    rules = collections.defaultdict(set)
    for _, rule, named in rule_rows():
        for definition in named or []:
            rules[definition].add(rule)
    return rules


def ordered(rules):
    return sorted(rules, key=lambda rule: int(rule[1:]))


def spec_modules():
    return [(file, os.path.basename(file)[:-len('.antt')]) for file in sorted(glob.glob(f'{SPECS}/*.antt'))]


def wrong_numbers(rules):
    """What is wrong with the numbers at the definitions, how many they are, and what is declared, as (module, name)."""
    bad, count, declared = [], 0, set()
    for file, module in spec_modules():
        above = None
        for number, line in enumerate(read(file).split('\n'), 1):
            numbers, declares = NUMBERS.fullmatch(line), DECLARES.match(line)
            if above and not declares:
                bad.append(f'{file}:{number - 1}: {above}: stands at no definition')
            if declares:
                name, has = (module, declares['name']), above.split(', ') if above else []
                asked, at = rules.get(name, set()), f'{file}:{number}: `{".".join(name)}`'
                bad += [f'{at} lacks {rule}, whose row names it' for rule in ordered(asked - set(has))]
                bad += [f'{at} has {rule}, and no row of that number names it' for rule in ordered(set(has) - asked)]
                if set(has) == asked and has != ordered(asked):
                    bad.append(f'{at} has {above}: not rising, each once')
                declared.add(name)
                count += len(has)
            if not numbers and re.search(r'--.*\bR\d+\b', line):
                bad.append(f"{file}:{number}: a rule's number in a comment of another form than `-- R52`")
            above = numbers[1] if numbers else None
    return bad, count, declared


def wrong_rows(declared):
    """What is wrong with the rows of the rules, where this is declared."""
    bad, seen = [], set()
    for number, rule, named in rule_rows():
        at = f'{RULES}:{number}: {rule}'
        if rule in seen:
            bad.append(f'{at} has a row before this one')
        if named is None:
            bad.append(f'{at} stands in no table with a column `definition`')
        bad += [f'{at}: no definition `{".".join(name)}` in {SPECS}' for name in named or [] if name not in declared]
        seen.add(rule)
    return bad if seen else [f'{RULES}: no rule found']


def write_numbers(rules):
    """Leaves the definitions with these numbers and no others."""
    for file, module in spec_modules():
        old, new = read(file), []
        for line in old.split('\n'):
            declares = DECLARES.match(line)
            if declares and (module, declares['name']) in rules:
                indent = line[:len(line) - len(line.lstrip())]
                new.append(f'{indent}-- {", ".join(ordered(rules[module, declares["name"]]))}')
            if not NUMBERS.fullmatch(line):
                new.append(line)
        if '\n'.join(new) != old:
            with open(file, 'w', encoding='utf-8') as text:
                text.write('\n'.join(new))
    return 0


def main(files):
    looked, bad = 0, []
    for file in files:
        passed, old, where = False, False, os.path.dirname(file)
        for number, line in enumerate(read(file).split('\n'), 1):
            if line.strip() == '<!-- names of that time -->':
                old = True
            if re.fullmatch(r'<!-- (archive|list) -->', line.strip()):
                passed = True
            elif not line.strip():
                passed = False
            if passed or line.startswith('    '):
                continue
            for token in [] if old else re.findall(r'`([^`]+)`', line):
                looked += 1
                why = missing(token)
                if why:
                    bad.append(f'{file}:{number}: `{token}`: {why}')
            for link in re.findall(r'\]\(([^)#]+)[^)]*\)', line):
                looked += 1
                if '://' not in link and not os.path.exists(os.path.join(where, link)):
                    bad.append(f'{file}:{number}: link to {link}: no such file')
    if ROOMS in map(os.path.normpath, files):
        rows = set(re.findall(r'`(\w+)`', '\n'.join(l.split('|')[1] for l in read(ROOMS).split('\n') if l.startswith('| `'))))
        bad += [f'{ROOMS}: the table of rooms lacks `{crate}`' for crate in sorted(CRATES - rows)]
    told = f'doc_names: {looked} names in {len(files)} documents, all in the tree'
    if RULES in map(os.path.normpath, files):
        wrong, count, declared = wrong_numbers(rules_of())
        bad += wrong + wrong_rows(declared)
        told += f"; {count} rules' numbers at definitions"
    for b in bad:
        print(f'doc_names: {b}', file=sys.stderr)
    if not bad:
        print(told)
    return 1 if bad else 0


if sys.argv[1:] in (['--mark'], ['--unmark']):
    sys.exit(write_numbers(rules_of() if sys.argv[1] == '--mark' else {}))
DOCUMENTS = ['README.md', 'HACKING.md'] + sorted(glob.glob('docs/*.md') + glob.glob('docs/landings/*.md'))
sys.exit(main(sys.argv[1:] or [f for f in DOCUMENTS if os.path.exists(f)]))
