"""Images: as formatting leaves them, made by calls, after power cuts, foreign; and damage to them, a clause at a time."""
from landed import Station, View
from register_model import GEOMETRY, MAX_VERSION, Medium, Refused, SIZES, UNITS, WORD, first_word, header_words, words_of

CHUNKS = GEOMETRY[12]           # chunks of 4,096 bytes
LENGTHS = [0, 1, 7, 8, 9, 16, 30, 100, 255, 256]
LARGE = [257, 300, 503, 504, 505, 760, 761, 1016, 1017, 1272, 1273, 2040, 2041, 4087, 4088]


def pattern(f, n):
    return bytes((f + i) % 256 for i in range(n))


def large_length(rng, power=12):
    """Of a value in a block; in large chunks most are short too, so that stores stay few."""
    if power == 16:
        return rng.choice([257, 257, 300, 505, 761, 1017, 4089, 5113])
    return rng.choice(LARGE if rng.random() < .3 else LARGE[:6])


def pick_keys(rng, n):
    return rng.sample([0, WORD - 1, 1, 7, 17, 34, 257] + [rng.getrandbits(64) for _ in range(4)], n)


def fresh(rng, count, filled=True, power=12):
    """As formatting leaves it, with anything outside of chunk 0."""
    chunk = GEOMETRY[power].words
    ws = header_words(count, rng.choice([None, 7, WORD - 1]), rng.choice([None, 0, 3]), power) + [0] * (count * chunk - 8)
    for _ in range(12 if filled else 0):
        ws[chunk + rng.randrange(len(ws) - chunk)] = rng.choice([17, 34, 3, rng.getrandbits(64)])
    return ws


def run_out(st, image):
    while st.pending:
        st.step(image)


def ours(rng, count, keys, turns, large=False, power=12):
    """An image that random calls made; large values have one of two lengths."""
    image, st, lengths = fresh(rng, count, power=power), Station(), [large_length(rng, power), large_length(rng, power)]
    st.open(image, 400)
    for turn in range(turns + 1):
        x, k = rng.random() if turn < turns else .8, rng.choice(keys)
        try:
            if x < .5:
                n = rng.choice(lengths) if large and rng.random() < .6 else rng.choice(LENGTHS) if rng.random() < .5 else rng.randrange(40)
                st.stage(image, k, pattern(rng.randrange(256), n))
            elif x < .65:
                st.stage(image, k, None)
            elif x < .9:
                st.commit(image)
            elif x < .93:
                st.abandon(image)
            else:
                st.clean(image, st.choose(image))
            run_out(st, image)
        except Refused:
            pass
    return image


def cut_short(rng, count, keys, large):
    """An image after a power cut in a call."""
    image = ours(rng, count, keys, 12, large)
    st, med = Station(), Medium(image)
    st.open(image, 400)
    for _ in range(20):
        x = rng.random()
        try:
            if x < .5:
                st.stage(image, rng.choice(keys), pattern(rng.randrange(256), large_length(rng) if large and rng.random() < .5 else rng.choice(LENGTHS)))
            elif x < .8:
                st.commit(image)
            else:
                st.clean(image, rng.randrange(1, count))
        except Refused:
            continue
        last = rng.random() < .4
        for _ in range(rng.randrange(len(st.pending.actions) + 1) if last else len(st.pending.actions) + 1):
            med.act(st.step(image))
        if last:
            break
    style = rng.random()
    return med.cut(lambda w, v: v[0] if style < .2 else v[-1] if style < .3 else rng.choice(v))


def foreign(rng, count, keys, with_blocks, twins=.6):
    """An image that no call of ours made: twins in the log and in blocks, several log chunks, lines with padding."""
    new = fresh(rng, count, filled=False)
    chunks = rng.sample(range(1, count), rng.choice([2, count - 1]))
    blocks = {}                                         # pointer -> the value's words
    if with_blocks:
        for c in chunks[:rng.choice([1, 1, 2]) if len(chunks) > 2 else 1]:
            s = rng.choice(SIZES)
            new[8 + c] = 2 | s << 8
            lengths = [rng.choice([257, s * 256 - 8]), rng.randrange(257, s * 256 - 7)]
            for j in range(UNITS // s):
                n = rng.choice(lengths)
                u, ws = c * UNITS + j * s, [n] + words_of(pattern(3 + rng.randrange(5) // 4, n))
                new[u * 32:u * 32 + len(ws)] = ws
                blocks[u] = ws
    said = {}                                           # what the last entry of a key and version says
    for c in chunks:
        if new[8 + c]:
            continue
        ws = []
        for _ in range(rng.choice([1, 3, 5, 7])):
            k, v = rng.choice(keys), rng.choice([1, 2, 2, 3])
            if rng.random() < twins and (k, v) in said:
                entry = said[k, v]
                if entry[0] & 4 and rng.random() < .3:  # the same value, in any block that has it: refused
                    entry = [first_word(1, 1, v, rng.choice([u for u in blocks if blocks[u] == blocks[entry[0] >> 24]])), k]
            elif rng.random() < .25:
                entry = [first_word(2, 0, v, 0), k]
            elif blocks and rng.random() < .5:
                entry = [first_word(1, 1, v, rng.choice(list(blocks))), k]
            else:
                entry = put_words(k, v, pattern(rng.choice([3, 4]), rng.choice([0, 1, 5, 8, 30, 64, 250])))
            said[k, v] = entry
            ws += entry + [0] * rng.choice([0, 0, 1, 6])
        ws = ws[:512]
        new[8 + c] = 1 | min(64, (len(ws) + 7) // 8 + rng.choice([0, 0, 0, 1, 30])) << 8
        new[c * 512:c * 512 + len(ws)] = ws
    return new


def accepted(make, want=lambda v: True):
    """An image that is accepted, with what is wanted in its view."""
    for _ in range(3000):
        ws = make()
        try:
            if want(View(ws, len(ws) * 8, 400)):
                return ws
        except Refused:
            pass
    raise AssertionError('no such image was made')


def has_twins(v):
    return any(len(es) > 1 for es in v.tops.values())


def has_block_twins(v):
    return any(sum(bool(e.block) for e in es) > 1 for es in v.tops.values())


def has_live(v):
    return bool(v.live)


def spare_sizes(v):
    """The block sizes of which a data chunk has two blocks that are not live."""
    return [s for c, (role, s) in enumerate(v.roles) if role == 2 and UNITS // s - sum(u // UNITS == c for u in v.live) >= 2]


def put_words(key, version, value):
    return [first_word(1, 0, version, len(value)), key] + words_of(value)


def old_versions(rng, keys):
    """Keys at the last version and just before it, as puts and as deletes."""
    ws, log = fresh(rng, 4), []
    for j, k in enumerate(keys):
        v = MAX_VERSION - (rng.choice([0, 0, 1, 2]) if j else 0)
        log += [first_word(2, 0, v, 0), k] if rng.random() < .3 and j else put_words(k, v, pattern(j, rng.choice([0, 3, 8])))
    log += [0] * (-len(log) % 8)
    ws[9] = 1 | len(log) // 8 << 8
    ws[512:512 + len(log)] = log
    return ws


def crowded(rng, count, keys, free, space):
    """Of the chunks so many are free, the highest or any; the others are log chunks, of which the first has so many lines of space."""
    ws = fresh(rng, count)
    roles = [1] * (count - 1 - free) + [0] * free
    if rng.random() < .7:
        rng.shuffle(roles)
    for c, role in enumerate(roles, 1):
        if role:
            lines, at, log = 64 - space, c * 512, {}
            space = 0
            for _ in range(rng.choice([1, 2, 4])):
                k = rng.choice(keys)
                log[k] = put_words(k, c, pattern(c, rng.choice([0, 5, 60, 256]))) if rng.random() < .8 else [first_word(2, 0, c, 0), k]
            new = [w for e in log.values() for w in e]
            ws[at:at + 512] = new + [0] * (512 - len(new))
            ws[8 + c] = 1 | lines << 8
    return ws


# ---- damage: a name for each clause, and the words that change; most ends in a refusal, some in none

def mended(ws, pokes):
    """Pokes of the header, with word 7 made right again."""
    head = list(ws[:8])
    for w, v in pokes:
        head[w] = v
    return pokes + [(7, -sum(head[:7]) % WORD)]


def header_damage(rng, ws, n):
    bits = ws[0]
    fields = bin(bits).count('1')
    return {
        'map-zero': [(0, 0)], 'map-without-count': mended(ws, [(0, 6)]), 'map-bit-3': mended(ws, [(0, bits | 8)]),
        'map-high-bit': mended(ws, [(0, bits | 1 << 63)]), 'map-more': mended(ws, [(0, bits | 2)]), 'map-fewer': mended(ws, [(0, 1)]),
        'map-all': mended(ws, [(0, 7)]), 'map-centre': mended(ws, [(0, 5)]),
        'unused-word': mended(ws, [(rng.randrange(1 + fields, 7), rng.choice([1, WORD - 1]))]), 'word-6': mended(ws, [(6, 1)]),
        'sum': [(7, (ws[7] + rng.choice([1, 2 ** 32, WORD - 1])) % WORD)], 'count-more': mended(ws, [(1, n + 1)]),
        'power-12': mended(ws, [(0, bits | 8), (1 + fields, 12)]), 'power-13': mended(ws, [(0, bits | 8), (1 + fields, 13)]),
        'power-16': mended(ws, [(0, bits | 8), (1 + fields, 16)]), 'power-behind': mended(ws, [(0, bits | 8), (1 + fields, 12), (2 + fields, 12)]),
        'power-before': mended(ws, [(0, bits | 8), (fields, 12)]), 'map-bit-4': mended(ws, [(0, bits | 16)]),
        'count-less': mended(ws, [(1, n - 1)]), 'field': mended(ws, [(2, 77)]), 'field-sum': [(2, (ws[2] + 1) % WORD)],
    }


def directory_damage(rng, ws, v):
    n, c = v.count, rng.randrange(1, v.count)
    d, old = 8 + c, ws[8 + c] or 257
    out = {
        'directory-0': [(8, rng.choice([1, 257, 514]))], 'directory-past': [(8 + n, rng.choice([256, 257, 514]))], 'directory-last': [(511, rng.choice([1, 257, 514]))],
        'role-3': [(d, 3)], 'role-3-lines': [(d, 3 | 2 << 8)], 'free-bits': [(d, rng.choice([256, 4, 1 << 63]))],
        'low-bits': [(d, old | rng.choice([4, 8, 16, 32, 64, 128]))], 'lines-0': [(d, 1)], 'lines-65': [(d, 1 | 65 << 8)], 'lines-64': [(d, 1 | 64 << 8)],
        'lines-high': [(d, old | 1 << rng.choice([16, 40, 63]))], 'size': [(d, 2 | rng.choice([0, 1, 6, 7, 9, 12, 15, 17, 32]) << 8)],
        'size-other': [(d, 2 | rng.choice(SIZES) << 8)], 'freed': [(d, 0)],
    }
    logs = [c for c in range(1, n) if v.roles[c][0] == 1]
    if logs:
        c = rng.choice(logs)
        lines, end = v.roles[c][1], c * 512 + v.roles[c][1] * 8
        out.update({
            'a-line-more': [(8 + c, 1 | min(64, lines + 1) << 8)], 'a-line-less': [(8 + c, 1 | max(1, lines - 1) << 8)],
            'end-first-word': [(end - 1, rng.choice([17, 34, 21]))],
            'end-value': [(end - 2, rng.choice([first_word(1, 0, 1, 1), first_word(1, 0, 9, 256), first_word(1, 1, 1, 16)])), (end - 1, 5)],
            'end-value-fits': [(end - 3, first_word(1, 0, 1, 8)), (end - 2, 5), (end - 1, 255)], 'end-empty': [(end - 2, 17), (end - 1, rng.getrandbits(64))],
        })
    return out


def entry_damage(rng, ws, v):
    if not v.entries:
        return {}
    e, other = rng.choice(v.entries), rng.choice(v.entries)
    at = e.chunk * 512 + e.offset
    word, versionless = ws[at], ws[at] & ~(0xFFFFF << 4)
    out = {
        'op-0': [(at, word & ~3)], 'op-3': [(at, word | 3)], 'op-other': [(at, word ^ 3)], 'placement-2': [(at, word & ~12 | 8)], 'placement-3': [(at, word | 12)],
        'placement-other': [(at, word ^ 4)], 'version-0': [(at, versionless)], 'version-other': [(at, versionless | other.version << 4)],
        'field-257': [(at, word & 0xFFFFFF | 257 << 24)], 'field-high': [(at, word | 1 << 63)], 'padding': [(at, 0)],
        'other-key': [(at + 1, other.key)], 'key-free': [(at + 1, rng.getrandbits(64))], 'twin': [(at + 1, other.key), (at, versionless | other.version << 4)],
    }
    deletes = [e for e in v.entries if e.op == 2]
    if deletes:
        e = rng.choice(deletes)
        at = e.chunk * 512 + e.offset
        out.update({'delete-field': [(at, ws[at] | 1 << 24)], 'delete-placement': [(at, ws[at] | 4)]})
    small = [e for e in v.entries if e.op == 1 and not e.block and e.tail % 8]
    if small:
        e = rng.choice(small)
        w, part = e.chunk * 512 + e.offset + e.words_long - 1, e.tail % 8
        out.update({'fill': [(w, ws[w] | 1 << 8 * rng.randrange(part, 8))], 'value-byte': [(w, ws[w] ^ 1 << 8 * rng.randrange(part))]})
    return out


def block_damage(rng, ws, v, name, some):
    """Of an entry that points to a block."""
    if not some:
        return {}
    n, e = v.count, rng.choice(some)
    at, chunk = e.chunk * 512 + e.offset, e.tail // UNITS
    out = {}
    targets = {'0': 0, 'chunk-0': rng.randrange(1, UNITS), 'past': n * UNITS, 'far': 2 ** 40 - 1, 'inside': e.tail + 1, 'leftover': chunk * UNITS + UNITS - 1,
               'log': e.chunk * UNITS}
    free, others = v.free_chunks(), [f.tail for f in v.entries if f.block and f.key != e.key and f.tail != e.tail]
    if free:
        targets['free'] = free[0] * UNITS
    if others:
        targets['shared'] = rng.choice(others)
    for k, u in targets.items():
        out[f'pointer-{k}'] = [(at, first_word(1, 1, e.version, u))]
    b, size = e.tail * 32, v.roles[chunk][1] if chunk < n else 0
    if v._block_right(e.tail):
        length = ws[b]
        last = b + (length + 7) // 8
        out.update({'length-256': [(b, 256)], 'length-more': [(b, size * 256 - 7)], 'length-most': [(b, size * 256 - 8)],
                    'length-far': [(b, rng.choice([2 ** 63, WORD - 1, 0]))], 'block-value': [(last, ws[last] ^ 1)],
                    'block-rest': [(b + size * 32 - 1, rng.getrandbits(64))]})
        if length % 8:
            out['block-fill'] = [(last, ws[last] | 1 << 8 * rng.randrange(length % 8, 8))]
    return {name + k: x for k, x in out.items()}


def twin_damage(rng, ws, v):
    """One committed line more, with an entry that has a top entry for a twin, or shares a block; a block more, with a top entry's value."""
    logs = [c for c in range(1, v.count) if v.roles[c][0] == 1 and v.roles[c][1] < 64]
    if not logs or not v.tops:
        return {}
    c = rng.choice(logs)
    lines, k = v.roles[c][1], rng.choice(list(v.tops))
    h, tops = v.chosen(k).version, [e for es in v.tops.values() for e in es]
    out = {'delete': [first_word(2, 0, h, 0), k], 'put': put_words(k, h, pattern(9, rng.randrange(40))), 'above': [first_word(2, 0, min(h + 1, MAX_VERSION), 0), k]}
    small = [e for e in tops if e.op == 1 and not e.block and e.tail < 48]
    if small:
        e = rng.choice(small)
        value = v.value(e)
        out.update({'same': v.entry_words(e), 'longer': put_words(e.key, e.version, value + b'\0'), 'other': put_words(e.key, e.version, b'x' + value[1:])})
    live = [e for e in tops if e.block]
    if live:
        e = rng.choice(live)
        blocks = sorted({f.tail for f in v.entries if f.block})
        out.update({'same-block': [first_word(1, 1, e.version, e.tail), e.key], 'block-and-log': put_words(e.key, e.version, b''),
                    'any-block': [first_word(1, 1, e.version, rng.choice(blocks)), e.key], 'shared': [first_word(1, 1, 1, e.tail), 12345],
                    'shared-below': [first_word(1, 1, max(1, h - 1), e.tail), k]})
    at, blocks = c * 512 + lines * 8, {}
    for e in live:
        size = v.roles[e.tail // UNITS][1]
        first = e.tail // UNITS * UNITS
        for u in range(first, first + UNITS - size + 1, size):
            if u not in v.live:
                out['equal-block'] = [first_word(1, 1, e.version, u), e.key]
                blocks['equal-block'] = [(32 * u + i, ws[32 * e.tail + i]) for i in range(1 + (ws[32 * e.tail] + 7) // 8)]
    return {f'twin-{name}': [(8 + c, 1 | lines + 1 << 8)] + [(at + i, w) for i, w in enumerate(words + [0] * (8 - len(words)))] + blocks.get(name, [])
            for name, words in out.items()}


times_damaged = {}


def some_damages(rng, ws):
    """Of each family of clauses those damaged least often so far."""
    v = View(ws, len(ws) * 8, 10 ** 6)
    pointing = [e for e in v.entries if e.block]
    families = [(1, header_damage(rng, ws, v.count)), (1 if pointing else 2, directory_damage(rng, ws, v)), (1 if pointing else 2, entry_damage(rng, ws, v)),
                (3 if pointing else 2, twin_damage(rng, ws, v)),
                (5, block_damage(rng, ws, v, '', [e for e in pointing if e in v.tops[e.key]])),
                (3, block_damage(rng, ws, v, 'old-', [e for e in pointing if e not in v.tops[e.key]]))]
    out = []
    for n, found in families:
        out += [(x, found[x]) for x in sorted(found, key=lambda x: (times_damaged.get(x, 0), rng.random()))[:n]]
    for x, _ in out:
        times_damaged[x] = times_damaged.get(x, 0) + 1
    if rng.random() < .3:
        (_, a), (_, b) = rng.sample(out, 2)
        out.append(('two', a + b))
    return out
