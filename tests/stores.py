"""Tells whether the compiled code of a function, and of all that it calls, stores the image's words whole.

python3 tests/stores.py ARCHIVE [FUNCTION]          zkv_step if none is named; zkv_run is the other one that stores

Reads the disassembly of an archive or object file (objdump). Looked at are the functions that are lent bytes to write: one whose source
has no `&mut [u8]` in its head cannot store into the image, so it is passed over. Every store outside the stack must be one move of 8 bytes
or of a vector register. The one exception are parts of the answer that a function returns: they go, at a constant offset, through the
pointer that it was given first (kept in a register or on the stack since), and that pointer is nowhere indexed by words, as an image is.
Nothing outside its object of the archive may be called. Prints what it found; the exit status is 1 if a store is of another kind.
"""
import os
import re
import subprocess
import sys

CRATES = os.path.join(os.path.dirname(os.path.dirname(os.path.abspath(__file__))), 'crates')
OBJECT = re.compile(r'^\S+:\s+file format ')
FUNCTION = re.compile(r'^[0-9a-f]+ <(.+)>:$')
RELOCATION = re.compile(r'^\s+[0-9a-f]+: R_X86_64_(\S+)\s+(\S+?)([-+]0x[0-9a-f]+)?$')
INSTRUCTION = re.compile(r'^\s+([0-9a-f]+):\s+(.+?)\s*(?:#.*)?$')
MEMORY = re.compile(r'(?:^|[\s,*])(-?(?:0x[0-9a-f]+)?\([^()]*\))$')                 # the last operand is memory
WHOLE = re.compile(r'%r(?:[abcd]x|[sd]i|[sb]p|8|9|1[0-5])$')                        # a 64-bit register
VECTOR_MOVES = ('movups', 'movaps', 'movupd', 'movapd', 'movdqu', 'movdqa')
READERS = ('cmp', 'test', 'bt', 'ucomi', 'comi', 'nop', 'call', 'jmp', 'push', 'lea', 'prefetch', 'mul', 'imul', 'div', 'idiv')
CALLED_MAY_CHANGE = ('rax', 'rcx', 'rdx', 'rsi', 'rdi', 'r8', 'r9', 'r10', 'r11')


def functions(archive, start):
    """Each function of the object that has `start`: its instructions with their addresses, and the names that it calls."""
    text = subprocess.run(['objdump', '-dr', '--no-show-raw-insn', archive], check=True, capture_output=True, text=True).stdout
    code, name, last = {}, None, ''
    for line in text.splitlines():
        if OBJECT.match(line):
            if start in code:
                break
            code, name = {}, None
        elif m := FUNCTION.match(line):
            name = m[1]
            code[name] = ([], set())
        elif name and (m := RELOCATION.match(line)):
            target = re.sub(r'^\.text\.', '', m[2])
            if m[1] == 'PLT32' or last.split()[0] in ('call', 'jmp') or m[2].startswith('.text'):
                code[name][1].add(target)
        elif name and (m := INSTRUCTION.match(line)):
            last = m[2]
            code[name][0].append((int(m[1], 16), last))
            if m := re.match(r'(?:call|jmp)\s+[0-9a-f]+ <([^+>]+)>', last):         # within the same section
                code[name][1].add(m[1])
    return code


def only_reads(name):
    """Whether a function of a crate is lent no bytes to write, by its head in the source."""
    crate, _, function = name.partition('::')
    folder = os.path.join(CRATES, crate, 'src')
    heads = []
    for file in sorted(os.listdir(folder)) if function and os.path.isdir(folder) else []:
        with open(os.path.join(folder, file), encoding='utf-8') as f:
            heads += re.findall(rf'fn {re.escape(function.split("::")[-1])}\s*\((.*?)\)\s*(?:->|ensures|requires|{{)', f.read(), re.S)
    return bool(heads) and not any('&mut [u8]' in h for h in heads)


# ---- where the pointer that a function was given first is kept

def register(text):
    """The 64-bit name of a register of any width."""
    r = text.lstrip('%')
    if m := re.fullmatch(r'(r\d+)[bwd]?', r):
        return m[1]
    if m := re.fullmatch(r'[re]?([abcd])[xlh]', r):
        return f'r{m[1]}x'
    m = re.fullmatch(r'[re]?([sd]i|[sb]p)l?', r)
    return f'r{m[1]}' if m else r


def operands(instruction):
    text = instruction.partition(' ')[2].strip()
    return re.findall(r'[^,(]*\([^)]*\)|[^,]+', text)


def slot(operand):
    m = re.fullmatch(r'(-?0x[0-9a-f]+)?\(%rsp\)', operand)
    return None if not m else int(m[1] or '0', 16)


def after(instruction, held):
    """The places (registers, offsets from the stack pointer) that hold the pointer after an instruction."""
    mnemonic, ops = instruction.split()[0], operands(instruction)
    if mnemonic == 'call':
        return held - set(CALLED_MAY_CHANGE)
    if mnemonic in ('push', 'pop') or ops and ops[-1] == '%rsp':                    # offsets change
        return frozenset(h for h in held if isinstance(h, str) and (mnemonic != 'pop' or h != register(ops[0])))
    if mnemonic.startswith(('mul', 'div', 'idiv', 'cqto')) or mnemonic.startswith('imul') and len(ops) == 1:
        return held - {'rax', 'rdx'}
    if mnemonic.startswith('xchg'):
        return held - {register(o) for o in ops}
    if not ops or mnemonic.startswith(('cmp', 'test', 'j', 'nop', 'prefetch', 'bt ')):
        return held
    to = slot(ops[-1]) if '(' in ops[-1] else register(ops[-1])
    if to is None:
        return frozenset(h for h in held if isinstance(h, str)) if '%rsp' in ops[-1] else held
    source = (slot(ops[0]) if '(' in ops[0] else register(ops[0])) if mnemonic == 'mov' and len(ops) == 2 else None
    moved = source in held and (isinstance(to, str) and WHOLE.fullmatch(ops[-1]) or isinstance(source, str) and WHOLE.fullmatch(ops[0]))
    if isinstance(to, int):
        wide = 32 if '%ymm' in ops[0] else 16 if '%xmm' in ops[0] else 8
        held = frozenset(h for h in held if isinstance(h, str) or h + 8 <= to or to + wide <= h)
    return held | {to} if moved else held - {to}


def pointer_places(instructions):
    """For each instruction the places that hold the function's first pointer before it, on every way to it."""
    index = {at: i for i, (at, _) in enumerate(instructions)}
    before, todo = {0: frozenset({'rdi'})}, [0]
    while todo:
        i = todo.pop()
        text = instructions[i][1]
        held, follow = after(text, before[i]), []
        m = re.match(r'(j\w+)\s+([0-9a-f]+) <', text)
        if m and int(m[2], 16) in index:
            follow.append(index[int(m[2], 16)])
        if not re.match(r'(ret|jmp|ud2)', text) and i + 1 < len(instructions):
            follow.append(i + 1)
        if re.match(r'jmp\s+\*', text):                                             # by a table: any of the places
            follow = list(range(len(instructions)))
        for j in follow:
            joined = held if j not in before else before[j] & held
            if joined != before.get(j):
                before[j] = joined
                todo.append(j)
    return [before.get(i, frozenset()) for i in range(len(instructions))]


# ---- stores

def address(instruction):
    """The memory that an instruction may store to: (base, index or None), outside the stack; else None."""
    mnemonic = instruction.split()[0]
    m = MEMORY.search(instruction.partition(' ')[2].strip())
    if 'nop' in instruction or not m or mnemonic.startswith(READERS) or '%rsp' in m[1]:
        return None
    base, _, index = m[1][m[1].index('(') + 1:-1].partition(',')
    return register(base), index or None


def not_whole(instruction):
    """Whether an instruction stores outside the stack otherwise than a whole word."""
    mnemonic, _, rest = instruction.partition(' ')
    if 'nop' in instruction:
        return False
    if mnemonic.startswith(('rep', 'lock')) or re.match(r'(stos|movs)[bwlq]?$', mnemonic):
        return True
    if address(instruction) is None:
        return False
    source = rest.strip()[:MEMORY.search(rest.strip()).start(1)].rstrip(', ')
    if source.startswith('%xmm'):
        return mnemonic not in VECTOR_MOVES
    if source.startswith('%'):
        return not WHOLE.search(source)
    return not mnemonic.endswith('q')


def wrong_stores(instructions):
    """The stores of a function that are not whole words, but for parts of its answer."""
    places = pointer_places(instructions)
    stored = [(text, address(text), held) for (_, text), held in zip(instructions, places)]
    indexed = any(a and a[1] and a[1].endswith(',8') and a[0] in held for _, a, held in stored)
    return [text for text, a, held in stored if not_whole(text) and (indexed or a is None or a[1] or a[0] not in held)]


def main():
    archive, start = sys.argv[1], sys.argv[2] if len(sys.argv) > 2 else 'zkv_step'
    code = functions(archive, start)
    if start not in code:
        sys.exit(f'stores: {archive} has no function {start}')
    reached, todo, passed, wrong, words = set(), [start], set(), [], 0
    while todo:
        name = todo.pop()
        if name in reached or name in passed:
            continue
        if only_reads(name):
            passed.add(name)
            continue
        reached.add(name)
        if name not in code:
            wrong.append(f'{name}: called, and not in its object')
            continue
        instructions, calls = code[name]
        todo += calls
        wrong += [f'{name}: {i}' for i in wrong_stores(instructions)]
        words += sum(bool(re.match(r'mov +%r\w+,[^%]*\(%r(?!sp)\w+,%r\w+,8\)$', i) and not not_whole(i)) for _, i in instructions)
    for w in wrong:
        print(f'stores: {w}')
    print(f'stores: {start} and what it calls: {len(reached)} functions, {words} moves of a word to an indexed place, '
          f'{len(wrong)} stores that are not whole words; {len(passed)} functions that write no bytes passed over')
    sys.exit(1 if wrong or not words else 0)


if __name__ == '__main__':
    main()
