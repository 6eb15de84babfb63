"""Facts: what the model says of images, calls, histories of calls, media and desk books."""
import random

from landed import RULES, Station, View
from register_model import GEOMETRY, Book, Image, Item, MAX_VERSION, Medium, Refused, SIZES, WORD, block_size, capacity, first_word, format_actions, header_words, words_of

from facts.codes import (Fact, actions_code, actions_text, call_text, entries_code, given_text, held_code, items_text, listed, named_in, of_entry, of_item, olds_of, opening_code,
                         poked_text, power_in, refused, report_code, report_text, sum_of, task_code, words_text)
from facts.images import (CHUNKS, LARGE, LENGTHS, accepted, crowded, cut_short, foreign, fresh, has_block_twins, has_live, has_twins, large_length, old_versions, ours,
                          pattern, pick_keys, put_words, some_damages, spare_sizes)

UNKNOWN = 12345                 # a key of no image


class Sheet:
    """A module of facts, about an image or about none."""
    def __init__(self, name, kind, words=None):
        self.name, self.kind, self.words, self.facts = name, kind, words, []

    def add(self, what, text, code):
        self.add_parts(what, text, [('', code)])

    def add_parts(self, what, text, parts, shorter=None):
        """Of parts (name, code)."""
        self.facts.append(Fact(f'{self.name}-{what}', text, parts, shorter))

    def head(self):
        words = '' if self.words is None else f'abbrev words : List ℕ\nwords = {words_text(self.words)}\n'
        return f'-- {self.kind}.\n-- Assumes nothing.\n', words


# ---- the model as a machine

class Machine:
    """Calls on the model's station, with the lengths lent; `commands` is the history so far, each with its antt text, its code and its name."""
    def __init__(self, words, table, station=None):
        self.words, self.memory, self.table = words, list(words), table
        self.nbytes, self.st = len(words) * 8, station or Station()
        self.start, self.commands = (self.nbytes, table), []
        self.power = RULES.header(words, self.nbytes)[0].power if station and station.open_length is not None else None

    def image(self):
        n = self.nbytes // 8
        image = Image((self.memory + [0] * n)[:n])
        image.nbytes = self.nbytes
        return image

    def barred(self, c, image):
        """What the state and the lengths alone decide."""
        st = self.st
        if c[0] in ('format', 'open'):
            return [0]
        if c[0] == 'step':
            if not st.pending:
                return [1] + report_code(('idle',))
            return [1] + report_code(('refused', 1)) if st._unlike(image) else [0]
        try:
            st._ready(image, reading=c[0] == 'look')
            return [0]
        except Refused as r:
            return [1] + report_code(('refused', r.number))

    def report(self, c, image):
        st = self.st
        try:
            if c[0] == 'format':
                return 'begun', st.format(image, c[1], c[2], power_in(c))
            if c[0] == 'open':
                st.open(image, self.table)
                self.power = RULES.header(image, self.nbytes)[0].power
                return 'opened',
            if c[0] == 'put':
                return 'begun', st.stage(image, c[1], pattern(c[2], c[3]), named_in(c))
            if c[0] == 'delete':
                return 'begun', st.stage(image, c[1], None, named_in(c))
            if c[0] == 'commit':
                return 'begun', st.commit(image)
            if c[0] == 'abandon':
                st.abandon(image)
                return 'abandoned',
            if c[0] == 'look':
                start, value, version = st.look(image, c[1])
                return 'part', start, len(value), version
            if c[0] == 'choose':
                return 'chosen', st.choose(image)
            if c[0] == 'clean':
                return 'begun', st.clean(image, c[1])
            return st.step(image)
        except Refused as r:
            return 'refused', r.number

    def state_code(self):
        st, items = self.st, entries_code([of_item(i) for i in self.st.staged])
        if st.pending:
            kind, acts, (nbytes, table, _) = st.pending.kind, st.pending.actions, st.pending.lengths
            if kind == 'format':
                return [3, nbytes, table, int(st.open_length is not None)] + actions_code(acts)
            return [2, self.power, st.open_length, st.table_words] + task_code(st.pending, self.memory) + items + actions_code(acts)
        return [0] if st.open_length is None else [1, self.power, st.open_length, st.table_words] + items

    def state_text(self):
        st = self.st
        if st.pending:
            kind, acts, result, (nbytes, table, _) = st.pending.kind, st.pending.actions, st.pending.result, st.pending.lengths
            if kind == 'format':
                return f'(Formatting {"true" if st.open_length is not None else "false"} {nbytes} {table} {actions_text(acts)})'
            olds = listed(olds_of(st.pending, self.memory))
            task = {'stage': 'Staging', 'commit': f'(Committing {olds})', 'clean': f'(Cleaning {result} {olds})'}[kind]
            return f'(Busy {self.power} {st.open_length} {st.table_words} {items_text(st.staged)} {task} {actions_text(acts)})'
        return 'Closed' if st.open_length is None else f'(Rest {self.power} {st.open_length} {st.table_words} {items_text(st.staged)})'

    def call(self, c):
        """Does a call; its code."""
        image = self.image()
        self.st.lent_table = self.table
        barred = self.barred(c, image)
        self.last = r = self.report(c, image)
        if r[0] == 'store':
            self.memory[r[1]] = r[2]
        if r[0] == 'refused':
            refused(r[1], c[0])
        left = len(self.st.pending.actions) + 1 if self.st.pending else 0
        return report_code(r) + [1 if r[0] == 'refused' else 2] + barred + self.state_code() + [left]

    # -- a history
    def do(self, *c):
        self.commands.append((f'Do {call_text(c)}', self.call(c), ' '.join('-' if x is None else str(x) for x in c)))
        return self.last

    def steps(self, n):
        s = 0
        for _ in range(n):
            self.call(('step',))
            s = sum_of(report_code(self.last), s)
        self.commands.append((f'Steps {n}', [s] + report_code(self.last) + self.state_code(), f'{n} steps'))

    def finish(self):
        if self.st.pending:
            self.steps(len(self.st.pending.actions) + 1)

    def done(self, *c):
        self.do(*c)
        self.finish()

    def lend(self, nbytes, table):
        self.nbytes, self.table = nbytes, table
        self.commands.append((f'Lend {nbytes} {table}', [], f'lend {nbytes} bytes, {table} words'))

    def looks(self, keys):
        for k in keys:
            self.do('look', k)

    def reprints(self, keys):
        """Look-ups in the unfinished call: at its begin, behind its first action and each one from its first fence on,
        at its end."""
        acts, done = list(self.st.pending.actions), 0
        fence = next((i for i, a in enumerate(acts) if a[0] == 'fence'), len(acts) - 1)
        self.looks(keys)
        for i in sorted({0, *range(fence, len(acts))}) if acts else ():
            self.steps(i + 1 - done)
            self.looks(keys)
            done = i + 1
        self.finish()
        self.looks(keys)

    def total(self):
        self.commands.append(('Total', [sum_of(self.memory)], 'the sum of the words'))

    def history(self, sheet, what='history'):
        def first(n):
            text = listed(t for t, _, _ in self.commands[:n])
            parts = [(human, code) for _, code, human in self.commands[:n]]
            return f'play {text} Closed words {self.start[0]} {self.start[1]}', parts
        sheet.add_parts(what, *first(len(self.commands)), shorter=first)


# ---- parts of histories

def any_call(rng, keys, count):
    k = rng.choice(keys)
    return rng.choice([('put', k, 1, 3), ('delete', k), ('put', k, 1, 3, 1), ('delete', k, 1), ('commit',), ('abandon',), ('look', k), ('choose',),
                       ('clean', rng.randrange(count + 1)), ('format', None, 4, rng.choice([12, 12, 16, 13])), ('step',)])


def some_version(rng, m, k):
    """None, or a version to name: mostly the one that stands, staged items counted."""
    highest = m.st._highest(m.st.view(m.image()), k)
    return rng.choice([None, None, highest, highest, max(0, highest - 1), highest + 1, 0])


def begun(rng, m, keys, count):
    """If a call was begun, it runs to its end, now and then with another call inside it, or with look-ups on both sides
    of its last fence."""
    if m.st.pending and rng.random() < .3:
        left = len(m.st.pending.actions)
        if left and rng.random() < .5:
            m.steps(rng.randrange(1, min(left, 40) + 1))
        m.do(*any_call(rng, keys, count))
    if m.st.pending and m.st.pending.kind != 'format' and rng.random() < .4:
        for left in rng.choice([(2, 1, 0), (5, 0), (4, 1), (1, 0)]):
            if left < len(m.st.pending.actions):
                m.steps(len(m.st.pending.actions) - left)
            m.do('look', rng.choice(keys))
    m.finish()


def some_calls(rng, m, keys, count, turns, large):
    for _ in range(turns):
        x, k = rng.random(), rng.choice(keys)
        if x < .45:
            v = some_version(rng, m, k)
            c = 'put', k, rng.randrange(256), rng.choice([large_length(rng, m.power), GEOMETRY[m.power].limit + 1]) if large and rng.random() < .6 else rng.choice(LENGTHS + [257])
            m.do(*c, *[] if v is None else [v])
        elif x < .6:
            v = some_version(rng, m, k)
            m.do('delete', k, *[] if v is None else [v])
        elif x < .8:
            m.do('commit')
        elif x < .85:
            m.do('abandon')
        elif x < .95:
            m.do('clean', rng.randrange(count + 1))
        else:
            m.do('choose')
        begun(rng, m, keys, count)


def other_lengths(rng, m, keys, count):
    """Lengths unlike those at the opening, or not allowed."""
    b, t = m.nbytes, m.table
    if rng.random() < .5:
        m.do('put', rng.choice(keys), 5, 9)
    m.lend(*rng.choice([(b, t + 1), (b, 0), (b + 4096, t), (b - 1, t), (12288, t), (0, t), (505 * 4096, t), (196608, t), (262144, t)]))
    for _ in range(2):
        m.do(*rng.choice([any_call(rng, keys, count), ('step',), ('format', 1, None), ('format', 1, None, 16)]))
    if m.st.pending and m.st.pending.kind == 'format':
        m.steps(3)
    m.lend(b, t)
    m.do(*rng.choice([('look', rng.choice(keys)), ('step',), ('format', None, None)]))


# ---- the kinds of image, taken in turn: (words, keys, table, a history)

def kind_fresh(rng, index):
    count, keys = rng.choice([4, 5]), pick_keys(rng, 3)
    m = Machine(fresh(rng, count), 16)
    m.do(*any_call(rng, keys, count))
    m.finish()
    m.do('open')
    m.do(rng.choice(['commit', 'abandon']))
    m.do('delete', keys[0])
    m.done('put', keys[0], 1, 5)
    m.do('clean', rng.randrange(count))
    m.do('commit')
    begun(rng, m, keys, count)
    m.done('clean', 1)
    m.do('look', keys[0])
    m.total()
    return keys, m


def kind_calls(rng, index):
    count, keys = rng.choice([4, 4, 5, 6]), pick_keys(rng, 4)
    m = Machine(ours(rng, count, keys, 25), 64)
    m.do('open')
    some_calls(rng, m, keys, count, 7, False)
    m.total()
    return keys, m


def kind_blocks(rng, index):
    count, keys = rng.choice([5, 6]), pick_keys(rng, 4)
    ws = accepted(lambda: ours(rng, count, keys, 25, large=True), lambda v: has_live(v) and spare_sizes(v))
    size = rng.choice(spare_sizes(View(ws, len(ws) * 8, 64)))
    m = Machine(ws, 64)
    m.do('open')
    for n in [n for n in LARGE if block_size(n) == size][:2] + [rng.choice(LARGE[:4])]:
        m.do('put', rng.choice(keys), 9, n)
        begun(rng, m, keys, count)
    m.do(rng.choice(['commit', 'commit', 'abandon']))
    begun(rng, m, keys, count)
    some_calls(rng, m, keys, count, 3, True)
    m.total()
    return keys, m


def kind_cut(rng, index):
    count, keys = rng.choice([4, 5]), pick_keys(rng, 4)
    m = Machine(cut_short(rng, count, keys, large=rng.random() < .5), 64)
    m.do('open')
    some_calls(rng, m, keys, count, 5, True)
    m.total()
    return keys, m


def kind_twins(rng, index):
    count, keys = rng.choice([4, 5, 6]), pick_keys(rng, 3)
    m = Machine(accepted(lambda: foreign(rng, count, keys, False), has_twins), 48)
    m.do('open')
    if m.do('choose')[0] == 'chosen':
        m.do('clean', m.last[1])
        begun(rng, m, keys, count)
        m.do('choose')
    some_calls(rng, m, keys, count, 4, False)
    m.total()
    return keys, m


def kind_block_twins(rng, index):
    count, keys = rng.choice([4, 5, 6]), pick_keys(rng, 3)
    m = Machine(accepted(lambda: foreign(rng, count, keys, True), rng.choice([has_live, has_block_twins])), 48)
    m.do('open')
    m.do('put', rng.choice(keys), 3, large_length(rng))
    begun(rng, m, keys, count)
    m.do('commit')
    begun(rng, m, keys, count)
    for _ in range(2):
        m.do('clean', rng.randrange(1, count))
        begun(rng, m, keys, count)
    m.do('look', rng.choice(keys))
    m.total()
    return keys, m


def kind_foreign(rng, index):
    """As it comes: most often refused."""
    count, keys = rng.choice([4, 5, 6]), pick_keys(rng, 3)
    m = Machine(foreign(rng, count, keys, rng.random() < .6, twins=.2), rng.choice([3, 8, 16]))
    m.do('open')
    m.do(*any_call(rng, keys, count))
    m.do('step')
    m.do('format', rng.choice([None, 5]), rng.choice([None, 6]))
    m.do(*any_call(rng, keys, count))
    m.total()
    return keys, m


def kind_versions(rng, index):
    keys = pick_keys(rng, 4)
    m = Machine(old_versions(rng, keys), 64)
    m.do('open')
    m.do('put', keys[0], 1, 4)
    m.do('delete', keys[0])
    for _ in range(4):
        m.done(*rng.choice([('put', rng.choice(keys), 1, 4), ('delete', rng.choice(keys))]))
    m.done('commit')
    m.done(*rng.choice([('put', keys[1], 1, 4), ('delete', keys[1])]))
    return keys, m


def kind_batch(rng, index):
    """Batches of 15 and 16 small items, or of 14 and 15 large ones, come with this image (`batch_facts`)."""
    keys = pick_keys(rng, 5)
    m = Machine(ours(rng, 4, keys, 8), 64)
    m.do('open')
    some_calls(rng, m, keys, 4, 4, False)
    return keys, m


def kind_small_table(rng, index):
    keys = pick_keys(rng, 5)
    ws = ours(rng, 4, keys[:3], 10)
    known = len(View(ws, len(ws) * 8, 400).by_key)
    m = Machine(ws, 4 * known + rng.choice([4, 7] if index // len(KINDS) % 2 == 0 else [0, 3]))
    m.do('open')
    m.done('put', keys[3], 1, rng.choice([3, 300]))
    m.done('put', keys[4], 1, rng.choice([3, 300]))
    m.done(*rng.choice([('delete', keys[3]), ('put', keys[3], 1, 2)]))
    m.done('commit')
    m.done('put', keys[4], 2, 2)
    m.do('open')
    m.do('put', keys[4], 2, 2)
    return keys, m


def kind_crowded(rng, index):
    """Few free chunks: none of the places exists, or just one does. Commits come with this image (`place_facts`)."""
    count, keys, free = rng.choice([4, 5, 6]), pick_keys(rng, 4), [2, 3, 1, 0][index // len(KINDS) % 4]
    m = Machine(crowded(rng, count, keys, free, rng.choice([0, 1, 2, 5]) if free % 3 == 0 else 0), 64)
    m.do('open')
    m.done('put', rng.choice(keys), 1, large_length(rng))
    m.done('put', rng.choice(keys), 1, rng.choice([0, 30, 256]))
    m.done('commit')
    m.do('open')
    m.done('delete', rng.choice(keys))
    m.done('commit')
    m.do('choose')
    m.done('clean', rng.randrange(1, count))
    m.total()
    return keys, m


def kind_many_chunks(rng, index):
    """The chunks that are taken have directory words past the directory's first line."""
    keys = pick_keys(rng, 4)
    ws = header_words(11) + crowded(rng, 8, keys, 0, 0)[8:] + [0] * (3 * 512)
    m = Machine(ws, 64)
    m.do('open')
    m.done('put', keys[0], 1, rng.choice([257, 300]))
    m.done('put', keys[1], 1, 12)
    m.done('commit')
    m.done('clean', rng.choice([9, rng.randrange(1, 8)]))
    m.total()
    return keys, m


def kind_formatting(rng, index):
    keys = pick_keys(rng, 3)
    m = Machine(ours(rng, 4, keys, 10), 32)
    if index // len(KINDS) % 3 != 2:
        m.do('open')
        if rng.random() < .5:
            m.do('put', keys[0], 1, 4)
            m.do('format', 1, 2)
            m.finish()
    m.do('format', rng.choice([None, 5, WORD - 1]), rng.choice([None, 6]))
    m.do(*any_call(rng, keys, 4))
    m.steps(rng.choice([1, 3, 4, 300, 514, 579, 580, 582]))
    m.do(*rng.choice([('look', keys[0]), ('format', None, None), ('commit',)]))
    if rng.random() < .4:
        m.do('open')
    m.finish()
    m.do(*any_call(rng, keys, 4))
    m.do('open')
    m.do(*any_call(rng, keys, 4))
    m.total()
    return keys, m


def kind_lengths(rng, index):
    count, keys = rng.choice([4, 5]), pick_keys(rng, 3)
    m = Machine(ours(rng, count, keys, 12), 40)
    m.do('open')
    other_lengths(rng, m, keys, count)
    m.do('open')
    other_lengths(rng, m, keys, count)
    return keys, m


KINDS = [('as formatting leaves it', kind_fresh), ('made by calls', kind_calls), ('with blocks', kind_blocks), ('after a power cut', kind_cut),
         ('foreign, with twins in the log', kind_twins), ('foreign, with blocks', kind_block_twins), ('foreign, as it comes', kind_foreign),
         ('at the last versions', kind_versions), ('with a full batch', kind_batch), ('with a small table', kind_small_table),
         ('with few chunks free', kind_crowded), ('with many chunks', kind_many_chunks), ('in a formatting', kind_formatting),
         ('with other lengths lent', kind_lengths)]


def image_sheet(seed, index):
    rng = random.Random(f'{seed}/image/{index}')
    kind, make = KINDS[index % len(KINDS)]
    keys, m = make(rng, index)
    ws, table = m.words, m.start[1]
    sheet = Sheet(f'image{index:03}', f'An image, {kind}', ws)
    sheet.add('opening', f'opening_code (opening {len(ws) * 8} words {table})', opening_code(ws, len(ws) * 8, table))
    try:
        v = View(ws, len(ws) * 8, 10 ** 6)
    except Refused:
        m.history(sheet)
        return sheet
    meaning_facts(rng, sheet, v, keys, table)
    damage_facts(rng, sheet, ws)
    if index % 3 == 0:
        length_fact(rng, sheet, ws, table)
    if index % 4 == 1:
        shown_fact(rng, sheet, v, keys)
    if len(v.by_key) <= capacity(table) and make is not kind_many_chunks:
        call_facts(rng, sheet, ws, keys, table, 3)
        if index % 5 == 2:
            cut_fact(rng, sheet, ws, keys, table)
    if make is kind_batch:
        batch_facts(rng, sheet, ws, keys, table, small=index // len(KINDS) % 2 == 0)
    if make is kind_crowded:
        place_facts(rng, sheet, v, keys, table)
    m.history(sheet)
    return sheet


# ---- the facts of an image

def meaning_facts(rng, sheet, v, keys, table):
    """What an accepted image means: its keys, its places, what each cleaning does."""
    ws, n = v.words, v.count
    b, known, entries = len(ws) * 8, len(v.by_key), f'(entries_in {v.geo.power} {n} words)'
    tables = [rng.choice([4 * known + 3, 4 * known]), max(0, 4 * known - 1)]
    sheet.add_parts('tables', f'each (λ t. opening_code (opening {b} words t)) {listed(tables)}', [(f'table of {t} words', opening_code(ws, b, t)) for t in tables])
    asked, parts = list(keys) + [UNKNOWN], []
    for k in asked:
        e, value = v.chosen(k) if k in v.tops else None, v.look_up(k)
        at = e.chunk * v.geo.words + e.offset if e else 0
        start = (e.tail * 32 + 1) * 8 if e and e.block else (at + 2) * 8
        code = [e.version if e else 0, len(v.tops.get(k, [])), int(e is not None), at] + held_code(value)
        parts.append((f'key {k}', code + report_code(('refused', 11) if value is None else ('part', start, len(value), e.version))))
    sheet.add_parts('keys', f'key_codes {listed(asked)} words {entries}', parts)
    some = rng.sample(asked, 2)
    sheet.add_parts('contents', f'each (λ k. held_code (contents {v.geo.power} {n} words k)) {listed(some)}', [(f'key {k}', held_code(v.look_up(k))) for k in some])
    st = Station()
    st.open(ws, 10 ** 6)
    try:
        best = [1, st.choose(ws)]
    except Refused:
        best = [0, 0]
    live = [e.tail for e in v.entries if e.op == 1 and e.block and e in v.tops[e.key]]
    sheet.add('whole', f'whole_code {v.geo.power} {n} words {entries}', [known, sum(v.by_key), sum_of(live), sum_of(v.free_chunks())] + best)
    parts = []
    for c in range(n + 1):
        st.pending = None
        try:
            st.clean(ws, c)
            parts.append((f'chunk {c}', [1] + task_code(st.pending, ws) + entries_code([]) + actions_code(st.pending.actions)))
        except Refused as r:
            refused(r.number, 'clean')
            parts.append((f'chunk {c}', [0, r.number]))
    sheet.add_parts('cleanings', f'clean_codes {v.geo.power} {n} words {entries} {listed(range(n + 1))}', parts)


def length_fact(rng, sheet, ws, table):
    b = len(ws) * 8
    lengths = [rng.choice([b - 1, b + 8, 12288, 0, 505 * 4096]), rng.choice([b + 4096, 504 * 4096, 196608, 262144, 512 * 4096])]
    sheet.add_parts('lengths', f'each (λ b. opening_code (opening b words {table})) {listed(lengths)}', [(f'{c} bytes', opening_code(ws, c, table)) for c in lengths])


def shown_fact(rng, sheet, v, keys):
    k = rng.choice(keys + list(v.tops))
    sheet.add('shows', f'shown_code (shows (look_up words (entries_in {v.geo.power} {v.count} words) {k}) (bytes_of words))', held_code(v.look_up(k)))


def damage_facts(rng, sheet, ws):
    b, table = len(ws) * 8, rng.choice([400, 400, 400, 4])
    for name, pokes in some_damages(rng, ws):
        new = list(ws)
        for w, x in pokes:
            new[w] = x
        sheet.add(f'damage-{name}', f'opening_code (opening {b} {poked_text(pokes)} {table})', opening_code(new, b, table))


def staged_on(rng, ws, table, keys, n, value=None):
    """A station on the image with n items staged, none in a block; puts of a value, or of small ones with deletes between."""
    st = Station()
    st.open(ws, table)
    st.lent_table = table
    for _ in range(6 * n):
        if len(st.staged) < n:
            try:
                st.stage(ws, rng.choice(keys), value if value is not None else None if rng.random() < .25 else pattern(rng.randrange(256), rng.choice([0, 3, 8, 30])))
                st.pending = None
            except Refused:
                pass
    return st


def call_fact(sheet, what, m, c):
    """A call on a state that is written out, on the image with the words that were stored since."""
    words = poked_text([(w, x) for w, x in enumerate(m.memory) if x != m.words[w]])
    text = f'call {call_text(c)} {m.state_text()} {words} {m.nbytes} {m.table}'
    sheet.add(what, text, m.call(c))


def call_facts(rng, sheet, ws, keys, table, n):
    """On states at rest with items, unfinished after some steps, formatting or closed; lent the right lengths or
    others."""
    b, count = len(ws) * 8, ws[1]
    for j in range(n):
        st, x, memory = staged_on(rng, ws, table, keys, rng.choice([0, 1, 2, 3])), rng.random(), list(ws)
        if x < .15:
            st = Station()
        elif x < .5:
            try:
                begin_some(rng, st, memory, rng.choice(keys), count)
                left = min(len(st.pending.actions), rng.choice([0, 1, 2, 3, 5, rng.randrange(len(st.pending.actions) + 1)]))
                while len(st.pending.actions) > left:
                    st.step(memory)
            except Refused:
                pass
        elif x < .65:
            if rng.random() < .5:
                st = Station()
                st.lent_table = table
            st.format(ws, None, 3, RULES.header(ws, b)[0].power)
            del st.pending.actions[:rng.choice([582, 581, 579, 575])]
        k = rng.choice(keys + [UNKNOWN])
        length, named = rng.choice([0, 3, 256, 257]), rng.choice([0, 1, 2, 3])
        c = rng.choice([('put', k, 1, length), ('put', k, 1, length, named), ('delete', k), ('delete', k, named), ('commit',), ('abandon',), ('look', k), ('choose',),
                        ('clean', rng.randrange(count + 2)), ('format', 9, None, rng.choice([12, 16])), ('step',), ('step',)])
        if st.pending and rng.random() < .4:
            c = 'look', rng.choice([i.key for i in st.staged] + [k])
        m = Machine(ws, table, st)
        m.memory = memory
        if c[0] != 'format':
            m.nbytes, m.table = rng.choice([(b, table)] * 5 + [(b, table + 4), (b - 4096, table), (b - 8, table)])
        call_fact(sheet, f'call-{j}-{c[0]}', m, c)


def begin_some(rng, st, image, key, count):
    """A commit, a cleaning or a large put."""
    x = rng.random()
    if st.staged and x < .5:
        st.commit(image)
    elif x < .6:
        st.stage(image, key, pattern(rng.randrange(256), 300))
    else:
        st.staged = []
        st.clean(image, rng.randrange(1, count))


def batch_facts(rng, sheet, ws, keys, table, small):
    """One item more, in batches with as many items or bytes as go in, and with one fewer."""
    for n in (16, 15) if small else (15, 14):
        st = staged_on(rng, ws, table, keys, n, None if small else pattern(3, 256))
        deleted = next((i.key for i in reversed(st.staged) if i.op == 1 and i.key not in [j.key for j in st.staged[st.staged.index(i) + 1:]]), keys[0])
        calls = [('put', keys[0], 1, 256), ('delete', deleted), rng.choice([('put', keys[0], 1, 0), ('put', keys[0], 1, 257)]),
                 rng.choice([('commit',), ('abandon',), ('clean', 1)])]
        for c in calls:
            copy = Station()
            copy.open(ws, table)
            copy.staged = list(st.staged)
            call_fact(sheet, f'batch-{n}-{"-".join(str(x) for x in c)}', Machine(ws, table, copy), c)


def place_facts(rng, sheet, v, keys, table):
    """Commits of puts, of deletes and of both, and a large value, where few chunks are free."""
    k, highest = keys[0], max([e.version for e in v.by_key.get(keys[0], [])], default=0)
    delete, put = Item(k, 2, highest + 2), Item(k, 1, highest + 1, pattern(1, 9))
    for name, items, c in (('deletes', [delete], ('commit',)), ('put', [put], ('commit',)), ('both', [put, delete], ('commit',)), ('large', [], ('put', k, 1, large_length(rng)))):
        st = Station()
        st.open(v.words, table)
        st.staged = items
        call_fact(sheet, f'places-{name}', Machine(v.words, table, st), c)


def newest_first(values, i):
    """Value number i of a word's, the newest being number 0; the newest where there is no such one."""
    return values[-1 - i] if i < len(values) else values[-1]


def cut_fact(rng, sheet, ws, keys, table):
    """A call cut short by power: the values that words can have, and the opening of what is left."""
    acts = None
    for _ in range(30):
        st = staged_on(rng, ws, table, keys, rng.choice([1, 1, 2]))
        try:
            if rng.random() < .3:
                st.staged = []
                st.clean(ws, rng.randrange(1, ws[1]))
            else:
                st.commit(ws)
        except Refused:
            continue
        acts = list(st.pending.actions)
        if len(acts) <= 25:
            break
    if acts is None:
        return
    acts = acts[:25]
    acts = acts[:rng.choice([len(acts), len(acts) - 1, len(acts) - 2, len(acts) - 3, rng.randrange(len(acts) + 1)])]
    picks, med, parts = [rng.randrange(3) for _ in range(rng.choice([1, 2, 7]))], Medium(ws), []
    for a in acts:
        med.act(a)
    at = sorted({a[1] for a in acts if a[0] == 'store'})[-12:]
    for w in at:
        parts.append((f'word {w}', [len(med.possible(w))] + med.possible(w)[::-1]))
    parts.append(('what is read', [sum_of(med.latest())]))
    left = med.cut(lambda w, v: newest_first(v, picks[w % len(picks)]))
    parts += [('the image left', [sum_of(left)]), ('its opening', opening_code(left, len(ws) * 8, table))]
    sheet.add_parts('cut', f'cut_code {listed(at)} {listed(picks)} {len(ws) * 8} {table} (run {actions_text(acts)} (settled_at words))', parts)


# ---- facts beside the images

def example_sheet():
    """The numbers that come with the rules, written here as they were given: worked by hand, and the examples of refusals."""
    empty = header_words(4) + [0] * 2040
    s = Sheet('examples', 'Examples of the rules', empty)
    s.add('header', 'header_words 12 16 G.None G.None', [1, 16, 0, 0, 0, 0, 0, 18446744073709551599])
    s.add('directory', '(log_word 0 2 ∷ data_word 0 3 ∷ [])', [513, 770])
    entries = ['entry 1 0 1 5 7 []', 'entry 1 0 1 0 7 []', 'entry 2 0 2 0 7 []', 'entry 1 1 1 48 7 []']
    s.add('entries', f'map head_of {listed(entries)}', [83886097, 17, 34, 805306389])
    s.add('sizes', 'map (block_size 12) (257 ∷ 504 ∷ 505 ∷ 4088 ∷ [])', [2, 2, 3, 16])

    def opens(n, length, *pokes):
        s.add(f'refusal-{n}', f'opening_code (opening {length} {poked_text(pokes)} 64)', [0, n])
        refused(n, 'open')

    def calls(name, answer, c, items=(), pokes=(), table=64, busy=''):
        state = f'({"Busy" if busy else "Rest"} 12 16384 {table} {items_text(items)}{busy})'
        s.add(name, f'take 2 (call {call_text(c)} {state} {poked_text(pokes)} 16384 {table})', answer)
        if answer[0] == 0:
            refused(answer[1], c[0])

    log, put, one = (9, 257), ('put', 7, 1, 1), [Item(7, 1, 1, b'')]
    full = [Item(7, 1, v, pattern(1, 256)) for v in range(1, 16)]
    opens(1, 4095)
    opens(2, 16384, (0, 0))
    opens(3, 16384, (9, 3))
    opens(4, 16384, log, (512, 3))
    opens(5, 16384, log, (512, first_word(1, 1, 1, 0)), (513, 7))
    opens(6, 16384, log, (512, first_word(1, 0, 2, 0)), (513, 7), (514, 34), (515, 7))
    calls('refusal-7', [0, 7], put, table=3)
    calls('refusal-8', [0, 8], ('commit',), one, busy=' (Committing []) (Fence ∷ [])')
    calls('refusal-9', [0, 9], ('put', 7, 1, 4089))
    calls('refusal-10', [0, 10], put, [Item(7, 1, v, b'') for v in range(1, 17)])
    calls('refusal-11', [0, 11], ('delete', 5))
    calls('refusal-12', [0, 12], put, pokes=[log, (512, first_word(1, 0, 1_048_574, 0)), (513, 7)])
    calls('put-before-12', [1, 0], put, pokes=[log, (512, first_word(1, 0, 1_048_573, 0)), (513, 7)])
    calls('refusal-12-delete', [0, 12], ('delete', 7), pokes=[log, (512, first_word(1, 0, 1_048_575, 0)), (513, 7)])
    calls('delete-before-12', [1, 0], ('delete', 7), pokes=[log, (512, first_word(1, 0, 1_048_574, 0)), (513, 7)])
    calls('refusal-13', [0, 13], ('put', 7, 1, 257), pokes=[log])
    calls('refusal-14', [0, 14], ('commit',))
    calls('refusal-15', [0, 15], ('clean', 1), one, [log])
    calls('refusal-16', [0, 16], ('clean', 0))
    calls('refusal-17', [0, 17], put + (1,))
    calls('refusal-17-delete', [0, 17], ('delete', 7, 2), one)
    calls('named-0', [1, 0], put + (0,))
    calls('named-staged', [1, 0], put + (1,), one)
    calls('named-0-deleted', [0, 17], put + (0,), pokes=[log, (512, first_word(2, 0, 1, 0)), (513, 7)])
    calls('4080-bytes-delete', [1, 0], ('delete', 7), full)
    calls('4080-bytes-put', [0, 10], ('put', 7, 1, 256), full)
    m = Machine(empty, 64)
    m.do('open')
    m.done('put', 7, 104, 5)
    m.done('put', 9, 0, 0)
    m.done('commit')
    assert m.memory[9] == 257
    m.done('delete', 9)
    m.done('commit')
    assert m.memory[9] == 513
    m.done('clean', 1)
    assert m.memory[9:11] == [0, 257] and m.last == ('end', 1)
    m.total()
    m.history(s, 'four-chunks')
    return s


def order_sheet():
    """Calls that several numbers would fit, for the order in which they are asked: a key at the last version, one before it, one deleted there,
    a full table, no space in the log, two chunks free; nothing staged, one item, a full batch."""
    spent, gone, there, new, worn = 5, 6, 7, 8, 9
    log = put_words(spent, MAX_VERSION, b'') + put_words(worn, MAX_VERSION - 1, b'') + [first_word(2, 0, MAX_VERSION, 0), gone] + put_words(there, 1, b'abc')
    ws = header_words(4) + [0] * 2040
    ws[9], ws[512:512 + len(log)] = 1 | 64 << 8, log
    s = Sheet('order', 'The order of refusals', ws)
    batches = {'none': [], 'delete': [Item(there, 2, 2)], 'full': [Item(there, 1, v, b'') for v in range(2, 18)]}
    calls = [('put', k, 1, n) for k in (spent, worn, there, new) for n in (3, 257, 4089)] + [('delete', k) for k in (spent, worn, gone, there, new)]
    calls += [('put', k, 1, n, v) for k in (spent, there, new) for n in (3, 4089) for v in (0, 1, MAX_VERSION)]
    calls += [('delete', k, v) for k in (spent, gone, there, new) for v in (0, 1, MAX_VERSION)]
    calls += [('commit',), ('abandon',), ('clean', 0), ('clean', 1), ('look', gone), ('format', None, None)]
    for name, items in batches.items():
        for c in calls:
            st = Station()
            st.open(ws, 16)
            st.staged = list(items)
            call_fact(s, f'{name}-{"-".join(str(x) for x in c)}', Machine(ws, 16, st), c)
    return s


def with_words(count, directory, logs):
    """An image with directory words, and with words in chunks."""
    ws = header_words(count) + [0] * (count * 512 - 8)
    for c, word in directory.items():
        ws[8 + c] = word
    for c, log in logs.items():
        ws[c * 512:c * 512 + len(log)] = log
    return ws


def reprint_sheets(seed):
    """Look-ups between the steps of each call that may be unfinished: of keys that the call is about, of one that it is
    not about, of an unknown one."""
    rng = random.Random(f'{seed}/reprints')
    changed, gone, new, still = pick_keys(rng, 4)
    one, two, three = (pattern(rng.randrange(256), n) for n in rng.sample(LENGTHS[:7], 3))
    nine, sheets = 1 | 9 << 8, []                       # a log chunk of nine lines

    def begun_on(name, kind, ws, *calls):
        m = Machine(ws, 64)
        m.do('open')
        for c in calls[:-1]:
            m.done(*c)
        m.do(*calls[-1])
        assert m.last[0] == 'begun', (name, m.last)
        sheets.append((Sheet(f'reprint-{name}', f'Look-ups in {kind}', ws), m))
        return m

    # a commit: a key put again, one deleted, a new one; behind the lines of a log chunk, and in a free chunk
    old = put_words(changed, 1, one) + put_words(gone, 3, two) + put_words(still, 1, three)
    batch = [('put', changed, 5, 9), ('delete', gone), ('put', new, 7, 3)]
    begun_on('commit-log', 'a commit', with_words(4, {2: nine}, {2: old}), *batch, ('commit',)).reprints([changed, gone, new, still, UNKNOWN])
    begun_on('commit-free', 'a commit', with_words(6, {1: 1 | 64 << 8, 2: 514}, {1: old}), *batch, ('commit',)).reprints([changed, new])
    m = begun_on('commit-inside', 'a commit, beside other calls', with_words(4, {1: 257}, {1: put_words(changed, 1, b'')}), batch[0], ('commit',))
    for left in (12, 1, 0):
        m.steps(len(m.st.pending.actions) - left)
        for c in (('commit',), ('put', changed, 1, 1), ('delete', changed), ('abandon',), ('choose',), ('clean', 1), ('format', None, None)):
            m.do(*c)
        for nbytes, table in ((16384, 63), (20480, 64), (16384, 64)):
            m.lend(nbytes, table)
            m.looks([changed])
    # a cleaning: copies to a chunk before and behind the cleaned one, a log chunk or a free one; frees only
    some, last = put_words(changed, 1, one) + put_words(gone, 2, two), put_words(still, 1, one)
    others = put_words(changed, 2, three) + [first_word(2, 0, 3, 0), gone] + put_words(new, 1, two)
    for name, ws, c in (('to-log-before', with_words(5, {2: nine, 3: nine}, {2: some, 3: others}), 3),
                        ('to-log-behind', with_words(5, {1: nine, 3: nine, 4: 257}, {1: others, 3: some, 4: last}), 1),
                        ('to-free-before', with_words(4, {3: nine}, {3: others}), 3),
                        ('to-free-behind', with_words(4, {1: nine}, {1: others}), 1),
                        ('frees-log', with_words(4, {1: nine, 2: nine}, {1: some, 2: others}), 1),
                        ('frees-data', with_words(4, {1: nine, 2: 770}, {1: others}), 2)):
        begun_on(f'clean-{name}', 'a cleaning', ws, ('clean', c)).reprints([changed, gone, new])
    # a put: of a value in the log; in a block, of a chunk that has one and of a free one
    large = {1: nine, 2: 514}, {1: [first_word(1, 1, 1, 34), changed] + last, 2: [0] * 64 + [300, *words_of(pattern(3, 300))]}
    for name, put in (('log', ('put', changed, 3, 9)), ('block', ('put', changed, 9, 257)), ('free', ('put', new, 9, 505))):
        m = begun_on(f'put-{name}', 'a put', with_words(6, *large), put)
        m.reprints([changed, new])
        m.do('commit')
        m.reprints([put[1]])
    # a formatting of an open register, with other lengths lent too; then with none open
    ws = with_words(4, {1: 257}, {1: put_words(changed, 1, b'')})
    m = begun_on('format', 'a formatting', ws, ('format', None, 5))
    for left in (581, 73, 1, 0):
        m.steps(len(m.st.pending.actions) - left)
        m.looks([changed, UNKNOWN])
        m.lend(m.nbytes, 65)
        m.looks([changed])
        m.lend(m.nbytes, 64)
    m.finish()
    m.looks([changed])
    m.do('format', None, None)
    m.lend(m.nbytes, 65)
    m.looks([changed])
    m.lend(m.nbytes, 64)
    m.looks([changed])
    for sheet, m in sheets:
        m.total()
        m.history(sheet)
    return [sheet for sheet, _ in sheets]


def header_said(words, nbytes):
    try:
        geometry, count = RULES.header(words, nbytes)
        return [1, geometry.power, count]
    except Refused:
        return [0]


def large_sheets(seed, n):
    """Chunks of 65,536 bytes: a history from an empty register to a cleaning, in parts, with the longest value and one
    more byte; openings of other lengths; and n images that calls made."""
    rng = random.Random(f'{seed}/large')
    sheets = [Sheet('large-start', 'Five large chunks', header_words(5, 7, None, 16) + [0] * (5 * 8192 - 8))]
    m = Machine(sheets[0].words, 64)
    m.do('open')
    m.do('format', None, 5, 13)
    m.done('put', 7, 104, 5)
    m.do('put', 9, 1, 65529)
    m.done('commit')
    m.do('look', 7)
    m.history(sheets[0])
    for j, b in enumerate((327680, 262144, 196608, 16384, 327680 + 4096)):
        sheets[0].add(f'opening-{j}', f'opening_code (opening {b} words 64)', opening_code(sheets[0].words, b, 64))

    def goes_on(name, *calls):
        new = Machine(m.memory, 64)
        new.do('open')
        for c in calls:
            (new.do if c[-1] == 'begun' else new.done)(*[x for x in c if x != 'begun'])
        sheets.append(Sheet(f'large-{name}', 'Five large chunks, with values', new.words))
        new.history(sheets[-1])
        return new

    m = goes_on('block', ('put', 9, rng.randrange(256), 257), ('commit',), ('look', 9), ('clean', 2))
    m = goes_on('beside', ('put', 11, rng.randrange(256), 300), ('delete', 7), ('commit',), ('look', 11), ('look', 7))
    goes_on('longer', ('put', 9, rng.randrange(256), 5000, 'begun'))
    goes_on('longest', ('put', 9, rng.randrange(256), 65528, 'begun'))
    goes_on('clean', ('choose',), ('clean', 1), ('look', 9), ('choose',), ('format', None, None, 16, 'begun'))
    for j in range(n):
        rng = random.Random(f'{seed}/large/{j}')
        count, keys = rng.choice([4, 5]), pick_keys(rng, 4)
        ws = ours(rng, count, keys, 12, large=True, power=16)
        v = View(ws, len(ws) * 8, 10 ** 6)
        sheets.append(Sheet(f'large-image{j}', 'An image of large chunks', ws))
        sheets[-1].add('opening', f'opening_code (opening {len(ws) * 8} words 64)', opening_code(ws, len(ws) * 8, 64))
        meaning_facts(rng, sheets[-1], v, keys, 64)
        call_facts(rng, sheets[-1], ws, keys, 64, 3)
        m = Machine(ws, 64)
        m.do('open')
        some_calls(rng, m, keys, count, 4, False)
        m.history(sheets[-1])
    return sheets


def number_sheet(seed):
    rng = random.Random(f'{seed}/numbers')
    s = Sheet('numbers', 'Sizes, roles, headers, bytes')
    for low in range(257, 4089, 958):
        n = min(958, 4089 - low)
        s.add(f'block-sizes-{low}', f'(sum_of 0 (map (λ n. block_size 12 (n + {low})) (up_from 0 {n})) ∷ [])', [sum_of(block_size(x) for x in range(low, low + n))])
    s.add('sizes', 'map (λ s. bit (is_size 12 s)) (up_from 0 40)', [int(x in SIZES) for x in range(40)])
    s.add('limit', '(block_limit 12 ∷ [])', [SIZES[-1] * 256 - 8])
    xs = [0, 1, 3, 4, 7, 8, 15, 16, 262143, 262144, 262147, 2 ** 40] + [rng.randrange(300000) for _ in range(5)]
    s.add('capacity', f'map capacity {listed(xs)}', [capacity(x) for x in xs])
    xs = [0, 1, 4095, 4096, 12288, 16383, 16384, 16385, 16392, 20480, 504 * 4096, 504 * 4096 + 1, 505 * 4096, 2 ** 40] + [4096 * rng.randrange(600) for _ in range(5)]
    s.add('lengths', f'map (λ b. bit (length_allowed 12 b)) {listed(xs)}', [int(RULES.length_allowed(x, 12)) for x in xs])
    xs += [65536 * rng.randrange(600) for _ in range(5)] + [65536 * n for n in (3, 4, 504, 505)]
    s.add('large-lengths', f'map (λ b. bit (length_allowed 16 b)) {listed(xs)}', [int(RULES.length_allowed(x, 16)) for x in xs])
    s.add('any-lengths', f'map (λ b. bit (any_allowed b)) {listed(xs)}', [int(RULES.length_allowed(x)) for x in xs])
    powers = [rng.choice([11, 12, 12, 13, 16, 16, 17]) for _ in xs]
    s.add('told-powers', listed(f'bit (size_allowed {p} {x})' for p, x in zip(powers, xs)), [int(p in RULES.powers and RULES.length_allowed(x, p)) for p, x in zip(powers, xs)])
    xs = [0, 1, 2, 3, 257, 256, 513, 514, 770, 1 | 64 << 8, 1 | 65 << 8, 2 | 16 << 8, 2 | 17 << 8, WORD - 1, 1 << 63]
    xs += [rng.choice([0, 1, 2, 3, 5, 6, 130, rng.randrange(256)]) | rng.choice([*range(10), 16, 63, 64, 65, rng.randrange(100)]) << 8 for _ in range(40)]
    s.add_parts('roles', f'each (λ w. role_code (role_of 12 w)) {listed(xs)}', [(f'word {x}', RULES.role(x, CHUNKS) or (3, 0)) for x in xs])
    text, parts = [], []
    for _ in range(30):
        n, p = rng.choice([4, 16, 504]), rng.choice([12, 16])
        h = header_words(n, rng.choice([None, rng.getrandbits(64)]), rng.choice([None, 0, 9]), p)
        for _ in range(rng.choice([0, 1, 1, 2])):
            h[rng.randrange(8)] = rng.choice([0, 1, 2, 3, 5, 7, 8, 9, 11, 12, 13, 15, 16, 17, n, rng.getrandbits(64)])
        if rng.random() < .8:
            h[7] = -sum(h[:7]) % WORD
        b = n << rng.choice([p, p, p, 28 - p])
        text.append(f'header_code {b} {listed(h)}')
        parts.append((f'{n} chunks, {b} bytes, {h}', header_said(h, b)))
    s.add_parts('headers', ' ++ '.join(f'({x})' for x in text), parts)
    s.add('large-sizes', 'map (size_for 16) (up_from 2 255)', GEOMETRY[16].table[2:])
    s.add('large-is-size', 'map (λ s. bit (is_size 16 s)) (up_from 0 300)', [int(x in GEOMETRY[16].sizes) for x in range(300)])
    s.add('large-limit', '(block_limit 16 ∷ [])', [GEOMETRY[16].limit])
    xs = [1, 257, 1 | 64 << 8, 1 | 65 << 8, 1 | 1024 << 8, 1 | 1025 << 8] + [2 | n << 8 for n in (0, 1, 2, 16, 20, 21, 51, 52, 255, 256, 257)]
    s.add_parts('large-roles', f'each (λ w. role_code (role_of 16 w)) {listed(xs)}', [(f'word {x}', RULES.role(x, GEOMETRY[16]) or (3, 0)) for x in xs])
    for j in range(4):
        p, n, a, b = rng.choice([12, 16]), rng.choice([4, 5, 16, 504]), rng.choice([None, 0, rng.getrandbits(64)]), rng.choice([None, 0, rng.getrandbits(64)])
        s.add(f'header-{j}', f'header_words {p} {n} {given_text(a)} {given_text(b)}', header_words(n, a, b, p))
        s.add(f'format-{j}', f'actions_code (format_of {p} {n} {given_text(a)} {given_text(b)})', actions_code(format_actions(header_words(n, a, b, p))))
        value = bytes(rng.randrange(256) for _ in range(rng.choice([0, 1, 7, 8, 9, 15, 31])))
        s.add(f'packed-{j}', f'packed {listed(value)}', words_of(value))
        s.add(f'bytes-{j}', f'value_bytes {len(value)} (packed {listed(value)})', value)
        s.add(f'words-{j}', f'words_of {listed(value)}', [int.from_bytes(value[i:i + 8], 'little') for i in range(0, len(value) - 7, 8)])
    return s


def log_sheet(seed, count):
    """Small logs of random entries and words: parsed, or refused."""
    rng = random.Random(f'{seed}/logs')
    s = Sheet('logs', 'Small logs')
    for j in range(count):
        lines, ws = rng.choice([1, 2, 3]), []
        while len(ws) < lines * 8:
            x, v = rng.random(), rng.choice([1, 2, 5, MAX_VERSION])
            if x < .35:
                ws += put_words(rng.getrandbits(64), v, pattern(1, rng.choice([0, 1, 5, 8, 12, 16])))
            elif x < .5:
                ws += [first_word(2, 0, v, 0), rng.choice([0, 5])]
            elif x < .6:
                ws += [first_word(1, 1, v, rng.getrandbits(40)), 5]
            elif x < .9:
                ws += [0] * rng.randrange(1, 4)
            elif x < .96:
                ws += [first_word(rng.randrange(4), rng.randrange(4), rng.choice([0, 1]), rng.choice([0, 0, 8, 256, 257])), 1]
            else:
                ws += [rng.getrandbits(64)]
        ws = ws[:lines * 8]
        v = View.__new__(View)                          # of one chunk, its lines alone
        v.words, v.geo = ws, CHUNKS
        try:
            code = [1] + entries_code([of_entry(v, e) for e in v._parse(0, lines)])
        except Refused:
            code = [0]
        s.add(str(j), f'parsed_code (entries_of {listed(ws)} 0 {lines})', code)
    return s


def medium_sheet(seed, count):
    rng = random.Random(f'{seed}/media')
    s = Sheet('media', 'The values that words can have after some actions, and after a power cut')
    for j in range(count):
        n = rng.choice([8, 16, 24, 40])
        ws, acts = [rng.choice([0, 1, 2, rng.getrandbits(64)]) for _ in range(n)], []
        for _ in range(rng.choice([0, 3, 10, 25, 40])):
            x, w = rng.random(), rng.choice([0, 1, rng.randrange(n), rng.randrange(n)])
            acts.append(('store', w, rng.randrange(100)) if x < .55 else ('flush', rng.choice([w // 8, rng.randrange(n // 8)])) if x < .85 else ('fence',))
        picks, med = [rng.randrange(4) for _ in range(rng.choice([1, 3, 8]))], Medium(ws)
        for a in acts:
            med.act(a)
        parts = [(f'word {w}', [len(v)] + v[::-1]) for w, v in enumerate(map(med.possible, range(len(med.now))))]
        parts += [('by reports', [sum_of(x for _, c in parts for x in c)]), ('what is read', med.latest())]
        parts.append(('after the cut', med.cut(lambda w, v: newest_first(v, picks[w % len(picks)]))))
        s.add_parts(str(j), f'media_code {listed(ws)} {actions_text(acts)} {listed(picks)}', parts)
    return s


def book_sheet(seed, count):
    rng = random.Random(f'{seed}/books')
    s = Sheet('books', 'Desk books')
    for j in range(count):
        keys = rng.sample(range(9), 3)
        register = {k: pattern(k, rng.randrange(4)) for k in keys if rng.random() < .6}
        b, text = Book(register), listed(f'item {k} (Value (pattern {k} {len(v)}))' for k, v in register.items())
        text = f'(new_book (done_items {text} nothing))'
        for _ in range(rng.choice([2, 6, 12, 20])):
            text = book_event(rng, keys, b, text)
        code = [x for k in keys for x in held_code(b.register.get(k))]
        code += [x for k, v in b.tray for x in [k] + held_code(v)] + [99]
        code += [0] if b.batch is None else [1] + [x for k, v in b.batch for x in [k] + held_code(v)] + [99]
        s.add(str(j), f'book_code {listed(keys)} {text}', code)
    return s


def book_event(rng, keys, b, text):
    """One event more, in the model's book and in the text."""
    k, f, n, x, no = rng.choice(keys), rng.randrange(256), rng.randrange(5), rng.random(), ('refused', rng.randrange(1, 18))
    taken = rng.random() < .75
    if x < .78:
        if x < .3:
            c, r, does = rng.choice([('put', k, f, n), ('put', k, f, n, 1)]), ('begun', rng.randrange(20)), lambda: b.staged(k, pattern(f, n))
        elif x < .42:
            c, r, does = rng.choice([('delete', k), ('delete', k, 1)]), ('begun', 0), lambda: b.staged(k, None)
        elif x < .55:
            c, r, does = ('commit',), ('begun', 13), b.committed
        elif x < .6:
            c, r, does = ('abandon',), ('abandoned',), b.abandoned
        else:
            c, r, does = ('step',), ('end', rng.randrange(3)), b.end
            no = rng.choice([('store', 1, 2), ('flush', 3), ('fence',), ('idle',), ('refused', 1)])
        if taken:
            does()
        return f'(note {call_text(c)} {report_text(r if taken else no)} {text})'
    if x < .85:
        b.cut()
        return f'(note_cut {text})'
    if x < .92:
        assert b.opened(b.done(b.register, b.batch or []) if taken else b.register)
        return f'(note_open {"true" if taken else "false"} {text})'
    c, r = rng.choice([(('look', k), ('part', 4112, 5, 1)), (('look', k), no), (('choose',), ('chosen', 2)), (('choose',), no),
                       (('clean', 1), ('begun', 3)), (('clean', 1), no), (('format', None, 3), no), (('open',), no)])
    return f'(note {call_text(c)} {report_text(r)} {text})'
