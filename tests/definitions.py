"""Compares the definitions of crates/spec with the model of the rules (tests/model): the prover computes the one,
Python the other.

python3 tests/definitions.py SEED COUNT [--only PATTERN] [--show N] [--keep] [--spec FOLDER]

Makes COUNT images (whole, damaged in each clause, foreign, after power cuts) with calls and histories of calls, and
beside them numbers, logs, media and desk books, and look-ups between the steps of each call; writes what the model says
of each as a fact of a throw-away crate over a copy of crates/spec; has `rt all check` compute them. A fact that does
not hold is named, the first N (2) with both values, and the exit status is 1. So it is where no call was refused with
one of the numbers in force (unless --only is given).
--only checks the facts whose names have the pattern; --keep leaves the throw-away repository behind and says where it
is; --spec takes another copy of crates/spec.
"""
import argparse
import os
import re
import shutil
import subprocess
import sys
import tempfile

sys.dont_write_bytecode = True
TESTS = os.path.dirname(os.path.abspath(__file__))
sys.path[:0] = [TESTS, os.path.join(TESTS, 'model')]
from facts import cases, codes                                                  # noqa: E402
from facts.codes import Fact, WORD, listed                                            # noqa: E402
from landed import REFUSALS                                                           # noqa: E402

CRATES = 4                      # the facts are shared out among so many crates, which are checked side by side


class Repository:
    """A throw-away repository: a copy of the definitions, the codes, and the crates of the facts."""
    def __init__(self, spec, folder):
        self.folder, self.crates = folder, []
        for part in ('src', 'specs'):                   # the declared types and the definitions; what is proved of them is not asked
            shutil.copytree(os.path.join(spec, part), os.path.join(folder, 'crates', 'spec', part))
        self.write('crates/codes/src/lib.rt', '// Nothing: the definitions beside this file are used.\n')
        self.write('crates/codes/specs/Lib.antt', 'pub mod Codes\n')
        self.write('crates/codes/specs/Codes.antt', codes.CODES)
        names, self.unfolding = {m: list(some) for m, some in codes.SPEC_NAMES.items()}, []
        for file in sorted(os.listdir(os.path.join(spec, 'specs'))):
            with open(os.path.join(spec, 'specs', file), encoding='utf-8') as h:
                found = re.findall(r'^\s*unfoldable (?:abbrev )?pub (\S+)', h.read(), re.M)
            names[file[:-5]] = sorted({*names.get(file[:-5], []), *found})
            self.unfolding += found
        self.uses = codes.USES + ''.join(f'use Rattle.spec.specs.{m}.{{{", ".join(some)}}}\n' for m, some in names.items() if some)

    def write(self, path, text):
        path = os.path.join(self.folder, path)
        os.makedirs(os.path.dirname(path), exist_ok=True)
        with open(path, 'w', encoding='utf-8') as h:
            h.write(text)

    def module(self, sheet, facts):
        """The text of a module, and the line at which each fact begins."""
        top, words = sheet.head()
        text, lines = f'{top}{self.uses}\n{words}', []
        for fact, test in facts:
            text += '\n'
            lines.append((text.count('\n') + 1, fact))
            text += f'{fact.name} : T ({test})\nunfolding {" ".join(self.unfolding)}\n{fact.name} = tt\n'
        return text, lines

    def check(self, sheets):
        """Checks (sheet, [(fact, test)]); the exit status, the facts that do not hold, and what was printed."""
        for c in self.crates:
            shutil.rmtree(os.path.join(self.folder, 'crates', c))
        self.crates, where = [f'cases{i}' for i in range(min(CRATES, len(sheets)))], {}
        for i, c in enumerate(self.crates):
            for j, (sheet, facts) in enumerate(sheets[i::len(self.crates)]):
                text, where[c, f'Sheet{j}'] = self.module(sheet, facts)
                self.write(f'crates/{c}/proofs/Sheet{j}.antt', text)
            self.write(f'crates/{c}/proofs/Lib.antt', ''.join(f'pub mod {name}\n' for crate, name in where if crate == c))
            self.write(f'crates/{c}/src/lib.rt', '// Nothing: the proofs beside this file are checked.\n')
        self.write('crates.txt', 'spec:\ncodes: spec\n' + ''.join(f'{c}: spec codes\n' for c in self.crates))
        run = subprocess.run(['rt', 'all', 'check'], cwd=self.folder, stdout=subprocess.PIPE, stderr=subprocess.STDOUT, text=True)
        failed, crate = [], None
        for said in run.stdout.split('\n'):
            head, at = re.fullmatch(r'== (\w+)', said), re.match(r'\./proofs/(\w+)\.antt:(\d+):\d+: error:?(.*)', said)
            if head:
                crate = head[1]
            if not at:
                continue
            fact = next((f for line, f in where.get((crate, at[1]), []) if line <= int(at[2]) < line + 3), None)
            if fact and fact not in failed:
                fact.note = ' (the prover stopped at its step limit)' if 'step limit' in at[3] else ''
                failed.append(fact)
        crates = len(self.crates) + 2
        if run.returncode == 0 and not run.stdout.rstrip().endswith(f'{crates} of {crates} crates ok'):
            return 2, failed, run.stdout
        return run.returncode, failed, run.stdout


class Asking:
    """What the prover computes where a fact does not hold, found by further facts."""
    def __init__(self, repository, sheet):
        self.repository, self.sheet = repository, sheet

    def hold(self, tests):
        facts = [(Fact(f'asked{i}', '', []), test) for i, test in enumerate(tests)]
        status, failed, _ = self.repository.check([(self.sheet, facts)])
        if status > 1 or (status == 1 and not failed) or any(f.note for f in failed):
            raise LookupError
        return [f not in failed for f, _ in facts]

    def number(self, text):
        """A number below 1,024; `?` for a larger one."""
        bits = self.hold([f'eqb ({text} / {2 ** i} % 2) 1' for i in range(10)] + [f'eqb ({text} / 1024) 0'])
        return sum(2 ** i for i in range(10) if bits[i]) if bits[10] else '?'

    def shortest(self, fact):
        """Of a history that differs, the fewest commands that do."""
        low, high = 0, len(fact.parts)
        while high - low > 1:
            n = (low + high) // 2
            if self.hold([test_of(Fact('', *fact.shorter(n)))])[0]:
                low = n
            else:
                high = n
        return Fact(fact.name, *fact.shorter(high))

    def difference(self, fact):
        """The part that differs first, as the model has it and as it is computed."""
        begin = 0
        if fact.shorter:
            fact = self.shortest(fact)
            begin = len(fact.code) - len(fact.parts[-1][1])
        size = self.number(f'length ({fact.text})')
        agree = self.hold([f'eqb (get_or ({fact.text}) {j} {WORD}) {fact.code[j]}' for j in range(begin, len(fact.code))])
        at = begin + agree.index(False) if False in agree else len(fact.code)
        before = 0
        for name, code in fact.parts:
            if at < before + len(code) or before + len(code) == len(fact.code):
                break
            before += len(code)
        found = [x if agree[j - begin] else self.number(f'get_or ({fact.text}) {j} 0') if j < size else 'none' for j, x in enumerate(fact.code[before:before + len(code)], before)]
        more = f'; {size} numbers in all, not {len(fact.code)}' if size != len(fact.code) else ''
        return f'    {name or "all"}, part {fact.parts.index((name, code)) + 1} of {len(fact.parts)}\n    model:       {list(code)}\n    definitions: {found}{more}'


def test_of(fact):
    return f'same ({fact.text}) {listed(fact.code)}'


def main():
    args = argparse.ArgumentParser(description=__doc__.split('\n')[0])
    args.add_argument('seed', type=int)
    args.add_argument('count', type=int)
    args.add_argument('--only', default='')
    args.add_argument('--keep', action='store_true')
    args.add_argument('--show', type=int, default=2)
    args.add_argument('--spec', default=os.path.join(os.path.dirname(TESTS), 'crates', 'spec'))
    args = args.parse_args()
    seed, count = args.seed, args.count
    sheets = [cases.example_sheet(), cases.order_sheet(), cases.number_sheet(seed), cases.log_sheet(seed, count // 2), cases.medium_sheet(seed, count // 2), cases.book_sheet(seed, count)]
    sheets += cases.reprint_sheets(seed) + cases.large_sheets(seed, 2)
    sheets += [cases.image_sheet(seed, i) for i in range(count)]
    sheet_of = {f: s for s in sheets for f in s.facts if re.search(args.only, f.name)}
    if not sheet_of:
        sys.exit(f'no fact has {args.only} in its name')
    folder = tempfile.mkdtemp(prefix='definitions-')
    try:
        repository = Repository(args.spec, os.path.join(folder, 'repository'))
        status, failed, said = repository.check([(s, [(f, test_of(f)) for f in s.facts if f in sheet_of]) for s in sheets if s in sheet_of.values()])
        if status and not failed:
            print(f'{said[-6000:]}\ndefinitions: the prover refused something else than a fact (rt all check: {status})')
            return 1
        for f in failed:
            print(f'{f.name}: not what the model says{f.note}. {sheet_of[f].kind}')
        if failed[:args.show]:
            print('what the numbers below say is told in tests/facts/codes.py')
        for f in failed[:args.show]:
            print(f'{f.name}:\n    {f.text[:1500]}', flush=True)
            try:
                print(Asking(repository, sheet_of[f]).difference(f), flush=True)
            except LookupError:
                print(f'    model:       {f.code}\n    definitions: not found')
    finally:
        if args.keep:
            print(f'kept: {folder}')
        else:
            shutil.rmtree(folder)
    missing = [] if args.only else [n for n in REFUSALS if n not in codes.seen]
    if missing:
        print(f'definitions: no call was refused with {", ".join(map(str, missing))}, so that was not compared: make more images')
    print('refusals compared, each with how many calls gave it: ' + ', '.join(f'{n} ({len(codes.seen[n])})' for n in sorted(codes.seen)))
    print(f'definitions: {count} images, {len(sheet_of)} facts, {len(failed)} differences')
    return 1 if failed or missing else 0


if __name__ == '__main__':
    sys.exit(main())
