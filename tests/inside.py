#!/usr/bin/env python3
"""What zkv says of an image's inside, info, history and check with the place of a fault, against the model's reading, on random registers,
on the same with words altered, and on crowded ones with many faults of the same kind; and that finding a fault among 60,000 entries takes
a bounded multiple of an opening.

tests/inside.py [REGISTERS [SEED [PROGRAM]]]    6 registers, seed 1, host/build/zkv (make -C host)

Places are found here by themselves, from the rules: the first wrong word of the header, the first wrong directory word, the first wrong
entry and how many stand before it, the first top entry whose block is wrong, and the first that disagrees or shares.
"""
import json
import os
import random
import resource
import struct
import subprocess
import sys
import tempfile
import time

sys.dont_write_bytecode = True
from landed import RULES                                                        # noqa: E402
from register_model import Refused, View, bytes_of, header_words                # noqa: E402

ZKV = os.path.abspath(sys.argv[3]) if len(sys.argv) > 3 else \
    os.path.join(os.path.dirname(os.path.abspath(__file__)), '..', 'host', 'build', 'zkv')
TABLE = 262144
ROLES = ('free', 'log', 'data')


def fail(text):
    sys.exit(f'inside: {text}')


def zkv(*words, given=b''):
    return subprocess.run([ZKV, *map(str, words)], input=given, capture_output=True)


def words_in(name):
    data = open(name, 'rb').read()
    return list(struct.unpack(f'<{len(data) // 8}Q', data)), len(data)


def make(rng, name):
    """A register with labels short and long, superseded and deleted, and some of it cleaned."""
    large = rng.random() < 0.4
    zkv('format', name, rng.randrange(6, 9 if large else 20), '--chunk-size', 65536 if large else 4096,
        *(('--station', rng.randrange(1 << 64)) if rng.random() < 0.5 else ()))
    for _ in range(rng.randrange(20, 70)):
        key = rng.randrange(8)
        if rng.random() < 0.2:
            zkv('delete', name, key)
        elif rng.random() < 0.1:
            zkv('clean', name, *(() if rng.random() < 0.5 else (rng.randrange(1, 6),)))
        else:
            length = rng.choice((1, rng.randrange(1, 60), 256, 257, rng.randrange(257, 1500), 4088, *([5113, 60000, 65528] if large else [])))
            zkv('put', name, key, '-', given=rng.randbytes(length))


# ---- an image that opens

def compare_info(v, name):
    wanted = []
    for c in range(1, v.count):
        role, size = v.roles[c]
        here = [e for e in v.entries if e.chunk == c]
        live = [e for e in here if v.chosen(e.key) is e]
        puts = sum(e.op == 1 for e in live)
        used = sum(u // v.geo.units == c for u in v.live)
        row = (size, puts, len(here) - len(live), len(live) - puts, 0, 0) if role == 1 else (0, 0, 0, 0, v.geo.units // size, 256 * size) \
            if role == 2 else (0,) * 6
        wanted.append([str(c), ROLES[role], *map(str, row), str(used)] if role else [str(c), 'free'])
    found = []
    told, _, *lines = zkv('info', name).stdout.decode().split('\n')[:-1]
    if told != f'{v.count} chunks of {8 * v.geo.words} bytes':
        fail(f'{name}: info begins with {told}')
    for line in lines:
        number, *rest = line.split()
        first, *last = map(int, number.split('..'))             # free chunks beside each other share a line
        if found and found[-1][1:] == rest == ['free'] or last and (rest != ['free'] or last[0] <= first):
            fail(f'{name}: info has a line {line}')
        found += [[str(c), *rest] for c in range(first, last[0] + 1 if last else first + 1)]
    if found != wanted:
        fail(f'{name}: info says {[f for f, w in zip(found, wanted) if f != w]} and the model {[w for f, w in zip(found, wanted) if f != w]}')


def compare_history(v, name, key):
    wanted = []
    for e in sorted(v.by_key.get(key, ()), key=lambda e: (e.version, e.place)):
        current = v.chosen(key) is e
        line = f'{e.version} {"put" if e.op == 1 else "delete"} chunk {e.chunk} line {e.offset // 8} {"current" if current else "superseded"}'
        if e.op == 1 and (current or not e.block):
            value = bytes(v.value(e))
            line += f' {len(value)} bytes' + (' ' + value.decode() if value and all(32 <= b < 127 for b in value) else '')
        elif e.op == 1:
            line += ' in a block that may hold another value now'
        wanted.append(line)
    r = zkv('history', name, key)
    lines = r.stdout.decode().split('\n')[:-1]
    if (r.returncode, lines) != ((0, [f'entries {len(wanted)}'] + wanted) if wanted else (1, [])):
        fail(f'{name}: history of {key} says {lines} and the model {wanted}')


# ---- a log with many entries of one key

def make_long(rng, name, lines):
    """An entry in each of so many lines: those of key 7, two thirds of all, with their versions in any order and the newest one twice."""
    count = 504
    words = [1, count, 0, 0, 0, 0, 0, -(1 + count) % (1 << 64)] + [0] * (512 * count - 8)
    many = 2 * lines // 3
    entries = [(7, version) for version in (*range(1, many), many - 1)] + [(8, version) for version in range(1, lines - many + 1)]
    rng.shuffle(entries)
    newest = rng.randbytes(8)
    for i, (key, version) in enumerate(entries):
        chunk, line = 1 + i // 64, i % 64
        words[8 + chunk] = 1 + 256 * (line + 1)
        at = 512 * chunk + 8 * line
        value = newest if version == many - 1 else b'%08d' % version
        words[at:at + 3] = (2 + 16 * version, key, 0) if version % 50 == 1 else (1 + 16 * version + (8 << 24), key, int.from_bytes(value, 'little'))
    open(name, 'wb').write(struct.pack(f'<{len(words)}Q', *words))


def history_seconds(name):
    """Of processor time, the least of three."""
    def once():
        before = resource.getrusage(resource.RUSAGE_CHILDREN)
        zkv('history', name, 7)
        after = resource.getrusage(resource.RUSAGE_CHILDREN)
        return after.ru_utime + after.ru_stime - before.ru_utime - before.ru_stime
    return min(once() for _ in range(3))


def compare_long(rng, name):
    """Against the model; and four times the entries take no more than eight times as long."""
    seconds = []
    for lines in (8000, 32000):
        make_long(rng, name, lines)
        v = View(*words_in(name), TABLE, model=RULES)
        for key in (7, 8, 9):
            compare_history(v, name, key)
        seconds.append(history_seconds(name))
    if seconds[1] > 8 * seconds[0]:
        fail(f'history took {seconds[0]:.3f} s at 8,000 entries and {seconds[1]:.3f} s at 32,000')
    return seconds[1]


# ---- one that does not

def told_at_once(name, *options):
    """What check writes first, and in all: a pipe of packets keeps its writes apart."""
    reading, writing = os.pipe2(os.O_DIRECT)
    job = subprocess.Popen([ZKV, 'check', name, *options], stdout=writing)
    os.close(writing)
    parts = list(iter(lambda: os.read(reading, 4096), b''))
    os.close(reading)
    job.wait()
    return parts[0].decode(), b''.join(parts).decode()


def compare_at_once(name, number):
    """The refusal is told before its place is looked for."""
    first, text = told_at_once(name)
    if not first.startswith(f'refused {number}: ') or first.count('\n') != 1 or not text[len(first):].startswith('at '):
        fail(f'check of a refused image writes {first!r} first, and in all {text!r}')
    first, text = told_at_once(name, '--json')
    if not first.startswith(f'{{"accepted":false,"refusal":{number},') or '"byte"' in first or '"byte"' not in text:
        fail(f'check --json of a refused image writes {first!r} first, and in all {text!r}')


def header_place(words, nbytes):
    fields = bin(words[0]).count('1')
    said = fields if words[0] in (9, 11, 13, 15) else 0                    # the word that says the power of the chunks
    power = words[said] if said else 12
    if not RULES.length_allowed(nbytes, power) or power not in RULES.powers:
        return said
    if words[0] % 2 == 0 or words[0] > 15:
        return 0
    if words[1] != nbytes >> power:
        return 1
    return next((i for i in range(1 + fields, 7) if words[i]), 7)


def entry_right(words, at, end):
    """How many words the entry at word `at` takes, 0 where it is wrong."""
    w = words[at]
    op, block, version, tail = w & 3, w >> 2 & 3, w >> 4 & 0xFFFFF, w >> 24
    size = 2 + ((tail + 7) // 8 if block == 0 else 0)
    if op not in (1, 2) or block > 1 or version == 0 or (op == 2 and (block or tail)) or (block == 0 and tail > 256) or at + size > end:
        return 0
    return size if block or not any(bytes_of(words, at + 2, (size - 2) * 8)[tail:]) else 0


def log_place(words, count, geo):
    before = 0
    for c in range(1, count):
        at, end = geo.words * c, geo.words * c + 8 * (words[8 + c] >> 8 if words[8 + c] & 255 == 1 else 0)
        while at < end:
            size = 1 if words[at] == 0 else entry_right(words, at, end)
            if size == 0:
                return at, before
            before += words[at] != 0
            at += size
    fail('the model refuses with 4, and no entry is wrong')


class Parsed(View):
    """The entries and top entries, whatever they say."""
    def __init__(self, words, nbytes):
        self.model, self.words = RULES, words
        self.geo, self.count = RULES.header(words, nbytes)
        self.roles = self._directory()
        self.entries = [e for c, (role, arg) in enumerate(self.roles) if role == 1 for e in self._parse(c, arg)]
        high = {}
        for e in self.entries:
            high[e.key] = max(high.get(e.key, 0), e.version)
        self.top_list = [e for e in self.entries if e.version == high[e.key]]
        self.firsts, self.users = {}, {}                     # the chosen top entry of a key, the keys whose top entries point to a unit
        for e in self.top_list:
            self.firsts.setdefault(e.key, e)
            if e.op == 1 and e.block:
                self.users.setdefault(e.tail, set()).add(e.key)

    def wrong_block(self, e):
        return e.op == 1 and e.block and not self._block_right(e.tail)

    def at_odds(self, e):
        return not self._agree(self.firsts[e.key], e) or e.op == 1 and e.block and len(self.users[e.tail]) > 1

    def first(self, test):
        e = next(e for e in self.top_list if test(e))
        return self.geo.words * e.chunk + e.offset


def place_of(number, words, nbytes):
    """What check is to say, beside the number."""
    if number == 2:
        return {'byte': 8 * header_place(words, nbytes)}
    geo, count = RULES.header(words, nbytes)
    if number == 3:
        c = next(c for c in range(504) if (RULES.role(words[8 + c], geo) is None if 1 <= c < count else words[8 + c]))
        return {'chunk': c, 'byte': 8 * (8 + c)}
    more = {}
    if number == 4:
        at, more['entries_before'] = log_place(words, count, geo)
    else:
        p = Parsed(words, nbytes)
        at = p.first(p.wrong_block if number == 5 else p.at_odds)
    return {'chunk': at // geo.words, 'line': at % geo.words // 8, 'byte': 8 * at, **more}


def alter(rng, v, words):
    """One word or two: of header, directory, log or blocks; or an entry's key, version or pointer made another's."""
    e, f = rng.choice(v.entries), rng.choice(v.entries)
    at, other = v.geo.words * e.chunk + e.offset, v.geo.words * f.chunk + f.offset
    kind = rng.randrange(8)
    if kind == 0:
        words[rng.randrange(8)] ^= 1 << rng.randrange(64 if rng.random() < 0.7 else 5)
    elif kind == 1:
        words[8 + rng.randrange(504 if rng.random() < 0.3 else v.count)] ^= 1 << rng.randrange(16)
    elif kind == 2:
        words[at] ^= 1 << rng.randrange(40)
    elif kind == 3:
        words[at + 1] = f.key
    elif kind == 4:
        words[at] = words[at] & ~(0xFFFFF << 4) | words[other] & 0xFFFFF << 4
    elif kind == 5 and e.block:
        words[32 * e.tail] ^= 1 << rng.randrange(14)
    elif kind == 6 and e.block and f.block:
        words[at] = words[at] & 0xFFFFFF | words[other] & ~0xFFFFFF
    else:
        words[at + rng.randrange(e.words_long)] = rng.choice((0, 1, rng.randrange(1 << 64)))


# ---- crowded registers: more keys than a table of the call's own holds, many faults, in any order of keys and places

def entry(op, block, version, tail, key, value=()):
    return [op | block << 2 | version << 4 | tail << 24, key, *value]


def image_of(count, entries, rng):
    """The words of an image of so many chunks: two data chunks of blocks of two units at the end, and the entries behind each other in
    log chunks, some with padding between them."""
    words = header_words(count) + [0] * (512 * count - 8)
    units = []
    for c in (count - 2, count - 1):
        words[8 + c] = 2 | 2 << 8
        for u in range(16 * c, 16 * c + 16, 2):
            words[32 * u] = 300
            words[32 * u + 1:32 * u + 38] = (rng.randrange(1 << 64) for _ in range(37))
            words[32 * u + 38] = rng.randrange(1 << 32)
            units.append(u)
    c, at = 1, 0
    for e in entries(units):
        skip = rng.randrange(3) if rng.random() < 0.05 else 0
        if at + skip + len(e) > 512:
            words[8 + c] = 1 | (at + 7) // 8 << 8
            c, at, skip = c + 1, 0, 0
        if c == count - 2:
            fail('the entries do not fit the image')
        words[512 * c + at + skip:512 * c + at + skip + len(e)] = e
        at += skip + len(e)
    words[8 + c] = 1 | (at + 7) // 8 << 8
    return words


def crowded(rng, many):
    """Entries of so many keys, some superseded, some standing twice; then faults: top entries that disagree or share a block with those of
    other keys, and in one of three registers wrong blocks too."""
    def entries(units):
        found, keys = [], [rng.randrange(1 << 64) for _ in range(many)]
        rng.shuffle(units)
        own, shared = units[:len(units) // 2], units[len(units) // 2:]
        wrong = rng.random() < 0.33

        def top(key, version):
            return rng.choice((entry(2, 0, version, 0, key), entry(1, 0, version, 0, key), entry(1, 0, version, 8, key, [rng.randrange(1 << 64)])))

        for key in keys:
            version = rng.randrange(1, 9)
            kind = rng.random()
            e = entry(1, 1, version, own.pop(), key) if kind < 0.01 and own else \
                entry(1, 1, version, rng.choice(shared), key) if kind < 0.02 else \
                entry(1, 1, version, rng.randrange(16 * 504), key) if wrong and kind < 0.03 else top(key, version)
            found.append(e)
            for _ in range(rng.choice((1, 2)) if rng.random() < 0.02 else 0):           # again: the same, or another
                other = entry(1, 1, version, rng.choice(shared), key) if rng.random() < 0.5 else top(key, version)
                found.append(list(e) if rng.random() < 0.7 else other)
            if rng.random() < 0.1 and version > 1:                                      # superseded: whatever it says
                found.append(entry(1, 1, version - 1, rng.choice(shared + [0, 8064]), key))
        rng.shuffle(found)
        return found
    return image_of(many // 90 + 8, entries, rng)


def large(rng, number):
    """60,000 entries; the blocks of the last two are wrong (5), or one (6), or right (0)."""
    def entries(units):
        found = [entry(1, 0, 1, 16, rng.randrange(1 << 64), (rng.randrange(1 << 64), rng.randrange(1 << 64))) for _ in range(59998)]
        return found + [entry(1, 1, 1, units[i if number == 0 else 0] if number != 5 else 1, rng.randrange(1 << 64)) for i in range(2)]
    return image_of(504, entries, rng)


def time_of(name, limit=None):
    """The best of several checks: other work disturbs little."""
    best = None
    for _ in range(5):
        start = time.monotonic()
        try:
            subprocess.run([ZKV, 'check', name], capture_output=True, timeout=limit)
        except subprocess.TimeoutExpired:
            continue
        took = time.monotonic() - start
        best = took if best is None else min(best, took)
    return best


def compare_time(rng, name, told, limit=300):
    """How many times as long a check takes that looks for a fault among 60,000 entries."""
    save(name, large(rng, 0))
    opened, worst = time_of(name), 0
    for number in (5, 6):
        words = large(rng, number)
        save(name, words)
        took = time_of(name, limit * opened)
        if took is None:
            fail(f'a fault of {number} among 60,000 entries takes more than {limit} times an opening, which takes {opened * 1000:.1f} ms')
        worst = max(worst, took / opened)
        compare_fault(words, 8 * len(words), name, told)
    return worst


def save(name, words):
    open(name, 'wb').write(struct.pack(f'<{len(words)}Q', *words))


def compare_fault(words, nbytes, name, told):
    """Whether the model accepts the image; else check is to say why it does not, and where."""
    save(name, words)
    try:
        w, number = View(words, nbytes, TABLE, model=RULES), 0
    except Refused as r:
        number = r.number
    found = json.loads(zkv('check', name, '--json').stdout)
    if number == 0:
        compare_info(w, name)
        if not found['accepted']:
            fail(f'check says {found}, and the model accepts')
        return True
    told[number] = told.get(number, 0) + 1
    if told[number] <= 2:
        compare_at_once(name, number)
    wanted = {'accepted': False, 'refusal': number, 'sentence': found.get('sentence'), **place_of(number, words, nbytes)}
    if found != wanted:
        fail(f'check says {found} and the model {wanted}')
    return False


def main():
    registers = int(sys.argv[1]) if len(sys.argv) > 1 else 6
    rng = random.Random(int(sys.argv[2]) if len(sys.argv) > 2 else 1)
    told, crowd, opened = {}, {}, 0
    with tempfile.TemporaryDirectory(dir='/dev/shm' if os.access('/dev/shm', os.W_OK) else None) as folder:
        name, altered = os.path.join(folder, 'l.img'), os.path.join(folder, 'd.img')
        for _ in range(registers):
            if os.path.exists(name):
                os.remove(name)
            make(rng, name)
            words, nbytes = words_in(name)
            v = View(words, nbytes, TABLE, model=RULES)
            compare_info(v, name)
            for key in range(9):
                compare_history(v, name, key)
            for _ in range(80 if v.entries else 0):
                changed = list(words)
                alter(rng, v, changed)
                opened += compare_fault(changed, nbytes, altered, told)
        for _ in range(5 * registers):
            words = crowded(rng, rng.choice((300, 2000, 6000)))
            compare_fault(words, 8 * len(words), altered, crowd)
        times = compare_time(rng, altered, crowd)
        long = compare_long(rng, name)
    if not {2, 3, 4, 5, 6} <= set(told) or not {5, 6} <= set(crowd):
        fail(f'only the refusals {sorted(told)} and, on crowded registers, {sorted(crowd)} were met')
    print(f'inside: {registers} registers and {opened} altered ones told chunk by chunk, {sum(told.values())} faults placed: '
          + ', '.join(f'{told[n]} of {n}' for n in sorted(told)) + '; on crowded registers ' + ', '.join(f'{crowd[n]} of {n}' for n in sorted(crowd))
          + f'; among 60,000 entries in {times:.0f} times an opening; a history over 32,000 entries in {long:.3f} s')


main()
