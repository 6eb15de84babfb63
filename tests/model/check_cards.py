"""Checks of the cards (CARDS-READING.md) on register_model.py; every expected value is worked out by hand from the documents.

python3 check_cards.py            runs all and prints `N passed, M failed`
python3 check_cards.py 7 10       only the checks of these cards

Each check names, where it guards against one, the misreading (m: ...) that makes it fail. Words are built here by
own helpers, not by the model's.
"""
import sys
import traceback
import register_model as rm
from register_model import Model, Station, View, Refused, Medium

W64 = 2 ** 64
LAST = 1_048_575
CHECKS = []


def check(card):
    def keep(f):
        CHECKS.append((card, f))
        return f
    return keep


# ---- words by hand
def P(key, version, value=b''):
    """A put in the log."""
    v = value + bytes(-len(value) % 8)
    return [1 | version << 4 | len(value) << 24, key] + [int.from_bytes(v[i:i + 8], 'little') for i in range(0, len(v), 8)]


def B(key, version, pointer):
    return [1 | 1 << 2 | version << 4 | pointer << 24, key]


def D(key, version):
    return [2 | version << 4, key]


def picture(n, seed=1):
    return bytes((seed + i) % 256 for i in range(n))


def image(count, logs={}, blocks={}, wear={}, power=12, lines={}):
    """logs: chunk -> words of entries; blocks: (chunk, size) -> {block number: value}; wear: chunk -> count."""
    size = 1 << power - 3
    im = [0] * (count * size)
    head = [1, count] if power == 12 else [9, count, power]
    im[:len(head)] = head
    im[7] = -sum(head) % W64
    for c, ws in logs.items():
        im[c * size:c * size + len(ws)] = ws
        im[8 + c] = 1 | lines.get(c, (len(ws) + 7) // 8) << 8
    for (c, s), values in blocks.items():
        im[8 + c] = 2 | s << 8
        for j, v in values.items():
            at = c * size + j * s * 32
            ws = [len(v)] + P(0, 1, v)[2:] if len(v) <= 256 else [len(v)] + words(v)
            im[at:at + len(ws)] = ws
    for c, n in wear.items():
        im[8 + c] |= n << 32
    return im


def words(v):
    v = v + bytes(-len(v) % 8)
    return [int.from_bytes(v[i:i + 8], 'little') for i in range(0, len(v), 8)]


def opened(im, cards, table=64):
    st = Station(Model(cards))
    st.open(im, table)
    return st


def fresh(count, cards, power=12, table=64):
    im, st = [0] * (count << power - 3), Station(Model(cards))
    st.format(im, power=power) if power != 12 else st.format(im)
    rm.run(st, im)
    st.open(im, table)
    return st, im


def no(number, call, *args):
    try:
        got = call(*args)
    except Refused as r:
        assert r.number == number, f'refused {r.number}, not {number}'
        return
    raise AssertionError(f'answered {got}, not refused {number}')


def same(a, b):
    assert a == b, f'{a!r} is not {b!r}'


def done(st, im, begun=None):
    return rm.run(st, im)


def put(st, im, key, value=b'x', **kw):
    st.stage(im, key, value, **kw)
    rm.run(st, im)


def delete(st, im, key, **kw):
    st.stage(im, key, None, **kw)
    rm.run(st, im)


def commit(st, im):
    st.commit(im)
    rm.run(st, im)


def clean(st, im, c):
    st.clean(im, c)
    return rm.run(st, im)[1]


def actions(st, im):
    out = []
    while True:
        r = st.step(im)
        if r[0] == 'end':
            return out, r
        out.append(r)


def opens(im, cards, table=64, second=None):
    try:
        View(im, len(im) * 8, table, model=Model(cards), second_words=second)
        return True
    except Refused as r:
        return r.number


def unchanged(st, im, number, call, *args):
    """Refused, and image, staged items and the unfinished call are as before."""
    keep, staged, pending = list(im), [vars(i).copy() for i in st.staged], st.pending
    no(number, call, *args)
    same(im, keep)
    same([vars(i) for i in st.staged], staged)
    assert st.pending is pending


# ================================================================ Card 1
def old(version, entry=P):
    return image(8, {1: entry(7, version, b'abc') if entry is P else entry(7, version)})


@check(1)
def put_reaches_the_last_but_one():
    im = old(LAST - 2)
    st = opened(im, {1})
    put(st, im, 7, b'')
    commit(st, im)
    same(im[520], 16_777_185)                    # 1 + 16 * 1,048,574


@check(1)
def put_at_the_last_but_one_gets_12():
    """m: only the last version itself is refused, as in the base"""
    im = old(LAST - 1)
    unchanged(opened(im, {1}), im, 12, opened(im, {1}).stage, im, 7, b'')
    put(opened(im, set()), im, 7, b'')           # the base accepts it


@check(1)
def delete_takes_the_last():
    """m: the lower limit holds for deletes too"""
    im = old(LAST - 1)
    st = opened(im, {1})
    delete(st, im, 7)
    commit(st, im)
    same(im[520], 16_777_202)                    # 2 + 16 * 1,048,575
    no(11, st.look, im, 7)


@check(1)
def older_image_still_opens_but_takes_neither():
    """m: an image with a put at the last version is refused; m: its delete is let through to 1,048,576"""
    im = old(LAST)
    st = opened(im, {1})
    same(st.look_up(im, 7), b'abc')
    unchanged(st, im, 12, st.stage, im, 7, b'')
    unchanged(st, im, 12, st.stage, im, 7, None)


@check(1)
def deleted_at_the_last():
    im = old(LAST, D)
    st = opened(im, {1})
    unchanged(st, im, 11, st.stage, im, 7, None)
    unchanged(st, im, 12, st.stage, im, 7, b'')


@check(1)
def staged_items_count():
    im = old(LAST - 2)
    st = opened(im, {1})
    put(st, im, 7)
    unchanged(st, im, 12, st.stage, im, 7, b'y')
    delete(st, im, 7)
    unchanged(st, im, 12, st.stage, im, 7, b'y')
    unchanged(st, im, 11, st.stage, im, 7, None)
    same([i.version for i in st.staged], [LAST - 1, LAST])


@check(1)
def place_of_12():
    """9 and 11 before it, 10 after it."""
    im = old(LAST - 1)
    st = opened(im, {1})
    no(9, st.stage, im, 7, bytes(4089))
    for k in range(16):
        put(st, im, 100 if k else 99, b'')
    no(12, st.stage, im, 7, b'')
    no(10, st.stage, im, 8, b'')


@check(1)
def a_worn_out_number_starts_anew_when_cleaned_away():
    im = old(LAST - 1)
    st = opened(im, {1})
    delete(st, im, 7)
    commit(st, im)
    same(clean(st, im, 1), 0)
    put(st, im, 7, b'')
    commit(st, im)
    same(im[512], 17)


# ================================================================ Card 2
TOP = W64 - 1


def four():
    """Keys 5, 9 and the highest present, 7 deleted; not in order in the log."""
    return image(8, {1: P(TOP, 1, b'z') + P(9, 1, b'n') + P(7, 1, b's') + P(5, 1, b'f') + D(7, 2)})


@check(2)
def next_present():
    """m: strictly above; m: a known but deleted key is found"""
    im = four()
    st = opened(im, {2})
    same([st.next_key(im, k) for k in (0, 5, 6, 7, 9, 10, TOP)], [5, 5, 9, 9, 9, TOP, TOP])


@check(2)
def none_at_or_above():
    im = image(8, {1: P(5, 1, b'f')})
    st = opened(im, {2})
    no(11, st.next_key, im, 6)
    st, im = fresh(4, {2})
    no(11, st.next_key, im, 0)
    lent = [77, 77]
    same(st.keys_between(im, 0, TOP, lent), 0)   # m: an empty list gets 11
    same(lent, [77, 77])


@check(2)
def both_bounds_included():
    """m: the upper bound is left out"""
    im = four()
    st = opened(im, {2})
    lent = [77] * 4
    same(st.keys_between(im, 5, 9, lent), 2)
    same(lent, [5, 9, 77, 77])
    same(st.keys_between(im, TOP, TOP, lent), 1)
    same(lent, [TOP, 9, 77, 77])
    same(st.keys_between(im, 6, 8, lent), 0)


@check(2)
def lower_above_upper_is_empty():
    """m: refused, or the bounds are swapped"""
    im = four()
    lent = [77]
    same(opened(im, {2}).keys_between(im, 9, 5, lent), 0)
    same(lent, [77])


@check(2)
def as_far_as_the_words_reach():
    """m: the count of all found is answered; m: the others are zeroed"""
    im = four()
    st = opened(im, {2})
    lent = [77] * 2
    same(st.keys_between(im, 0, TOP, lent), 2)
    same(lent, [5, 9])
    lent = [77] * 5
    same(st.keys_between(im, 0, TOP, lent), 3)
    same(lent, [5, 9, TOP, 77, 77])
    same(st.keys_between(im, 0, TOP, []), 0)


@check(2)
def staged_items_are_unseen():
    im = four()
    st = opened(im, {2})
    put(st, im, 6)
    delete(st, im, 9)
    same((st.next_key(im, 6), st.next_key(im, 9)), (9, 9))
    commit(st, im)
    same((st.next_key(im, 6), st.next_key(im, 9)), (6, TOP))


@check(2)
def pages():
    im = four()
    st = opened(im, {2})
    for room in (1, 2, 3, 4):
        low, seen = 0, []
        for _ in range(9):
            lent = [77] * room
            n = st.keys_between(im, low, TOP, lent)
            seen += lent[:n]
            if n < room or seen[-1] == TOP:
                break
            low = seen[-1] + 1
        same(seen, [5, 9, TOP])


@check(2)
def second_table_of_another_length():
    """m: looked at in the opening only; m: 2 or 7 instead of 1"""
    im = four()
    same(opens(im, {2}, 64, 63), 1)
    same(opens(im, {2}, 64, 65), 1)
    same(opens(im, {2}, 64, 64), True)
    st = opened(im, {2})
    st.lent_second = 60
    for call in ((st.look, im, 5), (st.next_key, im, 5), (st.keys_between, im, 0, 9, [1]), (st.stage, im, 5, b''),
                 (st.commit, im), (st.abandon, im), (st.choose, im), (st.clean, im, 1)):
        unchanged(st, im, 1, *call)
    st.lent_second = 64
    st.stage(im, 5, b'')
    st.lent_second = 60
    same(st.step(im), ('refused', 1))
    no(1, st.commit, im)                         # 1 before 8
    st.lent_second = 64
    same(st.step(im), ('end',))


@check(2)
def refused_opening_closes():
    im = four()
    st = opened(im, {2})
    no(1, st.open, im, 64, 60)
    lent = [77]
    no(2, st.keys_between, im, 0, TOP, lent)
    same(lent, [77])
    no(2, st.next_key, im, 0)


@check(2)
def in_a_commit_without_card_3():
    im = four()
    st = opened(im, {2})
    put(st, im, 6)
    st.commit(im)
    lent = [77]
    no(8, st.next_key, im, 0)
    no(8, st.keys_between, im, 0, TOP, lent)
    same(lent, [77])


@check(2)
def cleaning_changes_no_list():
    im = four()
    st = opened(im, {2})
    same(clean(st, im, 1), 3)                    # the delete of 7 has no entry elsewhere
    lent = [77] * 4
    same(st.keys_between(im, 0, TOP, lent), 3)
    same(lent, [5, 9, TOP, 77])


# ================================================================ Card 3
ALL = frozenset(range(1, 15))


@check(3)
def commit_shows_the_old_until_its_last_fence():
    """m: the new from the directory word's store on; m: from the reported end on"""
    im = image(8, {1: P(7, 1, b'aa')})
    st = opened(im, {3})
    put(st, im, 7, b'bb')
    same(st.commit(im), 13)
    for i in range(13):
        same(st.look(im, 7)[:2], (4096 + 16, b'aa'))
        st.step(im)
    same(st.look(im, 7)[:2], (4096 + 64 + 16, b'bb'))
    same(st.step(im), ('end',))
    same(st.look_up(im, 7), b'bb')


@check(3)
def a_new_and_a_deleted_key_in_a_commit():
    im = image(8, {1: P(7, 1, b'aa')})
    st = opened(im, {3})
    put(st, im, 8, b'bb')
    delete(st, im, 7)
    st.commit(im)
    for i in range(13):
        no(11, st.look, im, 8)
        same(st.look_up(im, 7), b'aa')
        st.step(im)
    same(st.look_up(im, 8), b'bb')
    no(11, st.look, im, 7)


@check(3)
def cleaning_shows_old_places_until_the_freeings_fence():
    """m: the copy's place from its own directory fence (action 13) on"""
    im = image(8, {1: P(7, 1, b'aa'), 2: P(7, 2, b'bb') + P(8, 1)})
    st = opened(im, {3})
    same(st.clean(im, 2), 16)
    for i in range(16):
        same(st.look(im, 7)[0], 2 * 4096 + 16)
        st.step(im)
    same(st.look(im, 7), (4096 + 64 + 16, b'bb', 2))
    same(st.step(im), ('end', 2))


@check(3)
def staging_shows_the_register_throughout():
    im = image(8, {1: P(7, 1, b'aa')})
    st = opened(im, {3})
    same(st.stage(im, 7, bytes(300)), 2 + 39 + 5)
    for i in range(46):
        same(st.look(im, 7), (4096 + 16, b'aa', 1))
        st.step(im)
    same(st.look(im, 7), (4096 + 16, b'aa', 1))
    same(st.step(im), ('end',))
    same(st.stage(im, 7, b''), 0)                # without actions it is unfinished until its one step
    same(st.look_up(im, 7), b'aa')


@check(3)
def formatting_still_gets_8():
    """m: look-up answers in a formatting too"""
    im = image(8, {1: P(7, 1, b'aa')})
    st = opened(im, {2, 3})
    st.format(im)
    no(8, st.look, im, 7)
    no(8, st.next_key, im, 7)
    for _ in range(582):
        st.step(im)
    no(8, st.look, im, 7)
    st.step(im)
    no(2, st.look, im, 7)
    st.format(im)
    no(2, st.look, im, 7)                        # no register open: 2 comes first


@check(3)
def the_others_still_get_8():
    """m: choosing or estimates answer too; the example is a commit in a commit"""
    im = image(8, {1: P(7, 1, b'aa')})
    st = opened(im, ALL)
    put(st, im, 7, b'bb')
    st.commit(im)
    for call in ((st.commit, im), (st.stage, im, 7, b''), (st.abandon, im), (st.choose, im), (st.clean, im, 1),
                 (st.format, im), (st.estimate_commit, im)):
        unchanged(st, im, 8, *call)
    for _ in range(13):
        st.step(im)
    unchanged(st, im, 8, st.commit, im)          # after the last fence, before the end, too


@check(3)
def searches_in_a_commit():
    im = image(8, {1: P(7, 1, b'aa')})
    st = opened(im, {2, 3})
    put(st, im, 9, b'bb')
    delete(st, im, 7)
    st.commit(im)
    for i in range(13):
        lent = [1, 1]
        same((st.next_key(im, 0), st.keys_between(im, 0, 9, lent), lent), (7, 1, [7, 1]))
        st.step(im)
    same(st.next_key(im, 0), 9)


@check(3)
def lengths_come_first_inside_a_call():
    im = image(8, {1: P(7, 1, b'aa')})
    st = opened(im, {3})
    put(st, im, 7, b'bb')
    st.commit(im)
    st.lent_table = 60
    no(1, st.look, im, 7)


@check(3)
def without_the_card_8():
    im = image(8, {1: P(7, 1, b'aa')})
    st = opened(im, {2})
    st.stage(im, 7, b'')
    no(8, st.look, im, 7)


@check(3)
def what_a_cut_may_leave():
    """Every cut of a commit's directory word leaves the old or the new; the answer is one of them at each point."""
    im = image(8, {1: P(7, 1, b'aa')})
    st, med = opened(im, {3}), None
    put(st, im, 7, b'bb')
    med = Medium(im)
    st.commit(im)
    seen = []
    for i in range(14):
        left = set()
        for w in med.possible(9):
            other = list(im)
            other[9] = w
            left.add(View(other, len(other) * 8, 64).look_up(7))
        assert st.look_up(im, 7) in left
        seen.append(len(left))
        if i < 13:
            med.act(st.step(im))
    same(seen, [1] * 11 + [2, 2] + [1])          # both only between the store and the last fence


# ================================================================ Card 4
def to_clean():
    """Chunk 2 keeps put 7 v2, the delete of 8 (older put in chunk 1) and put 9; 10's put is superseded in chunk 3."""
    return image(8, {1: P(7, 1, b'old') + P(8, 1, b'gone'), 2: P(7, 2, b'new') + D(8, 2) + P(9, 1, b'') + P(10, 1, b'w'),
                     3: P(10, 2, b'v')})


def altered(pokes, at, cards={4}):
    """The actions of cleaning chunk 2, with words altered behind its back before step `at`."""
    im = to_clean()
    st = opened(im, cards)
    total, out = st.clean(im, 2), []
    while True:
        if len(out) == at:
            for w, v in pokes:
                im[w] = v
        r = st.step(im)
        out.append(r)
        if r[0] == 'end':
            assert len(out) == total + 1
            return out


@check(4)
def the_plain_cleaning():
    out = altered([], 0)
    same(len(out), 9 + 4 + 3 + 1)                # 24 + 16 + 16 = 56 bytes: one line
    same([r[2] for r in out[:8]], P(7, 2, b'new') + D(8, 2) + P(9, 1) + [0])
    same(out[-1], ('end', 3))
    same(out[0][1], 512 + 8)                     # behind chunk 1's one line: 3 + 3 words


@check(4)
def a_higher_version_elsewhere_comes_too_late():
    """m: an entry is kept by what its key's table line says when it is copied"""
    for at in (0, 1, 5, 9, 13, 15):
        same(altered([(512, P(7, 9, b'old')[0])], at), altered([], 0))


@check(4)
def the_older_put_gone_changes_no_delete():
    for at in (0, 2, 10):
        same(altered([(512 + 3, P(8, 1, b'gone')[0] + 16 * 7), (512 + 4, 77)], at), altered([], 0))


@check(4)
def a_superseding_entry_gone_brings_nothing_back():
    """m: the count is taken again at the end"""
    for at in (0, 6, 14):
        same(altered([(3 * 512, 0), (3 * 512 + 1, 0), (3 * 512 + 2, 0)], at), altered([], 0))


@check(4)
def as_without_the_card():
    same(altered([], 0), altered([], 0, cards=()))
    st, im = fresh(6, {4})
    tw, iw = fresh(6, ())
    for i in range(40):
        for s, m in ((st, im), (tw, iw)):
            put(s, m, i % 5, bytes(i * 5 % 200))
            commit(s, m)
    a, b = (s.choose(m) for s, m in ((st, im), (tw, iw)))
    same(a, b)
    same((st.clean(im, a), actions(st, im)), (tw.clean(iw, a), actions(tw, iw)))


@check(4)
def refusals_as_before():
    im = image(4, {1: P(7, 1, bytes(200)), 2: P(8, 1, bytes(200)), 3: P(9, 1, bytes(200))}, lines={1: 64, 2: 64, 3: 64})
    st = opened(im, {4})
    unchanged(st, im, 13, st.clean, im, 1)
    unchanged(st, im, 16, st.clean, im, 0)


# ================================================================ Card 5
HEAD = ' ' * 17 + 'KEY VERSION BYTES P\n'


@check(5)
def empty_register_one_page():
    im = image(4)
    same(rm.sheet_output(im, 16384), HEAD)
    same(len(HEAD), 37)


@check(5)
def one_row():
    im = image(4, {1: P(7, 1, b'abcde')})
    same(rm.sheet_output(im, 16384), HEAD + ' ' * 19 + '7' + ' ' * 7 + '1' + ' ' * 5 + '5 L\n')


@check(5)
def widest_row():
    im = image(4, {1: B(TOP, LAST, 32)}, {(2, 16): {0: picture(4088)}})
    same(rm.sheet_output(im, 16384), HEAD + '18446744073709551615 1048575  4088 B\n')


def rows(n):
    ws = [w for k in range(n) for w in P(1000 - k, 1)]      # falling keys in the log
    return rm.sheet_output(image(16, {1: ws[:512], 2: ws[512:]} if len(ws) > 512 else {1: ws}), 65_536)


@check(5)
def fifty_rows_are_one_page():
    """m: a full page is always followed by another"""
    out = rows(50)
    assert '\f' not in out and out.count('\n') == 51 and out.startswith(HEAD)


@check(5)
def the_fifty_first_row_turns_the_page():
    """m: a form feed at the end too, or on a line of its own"""
    out = rows(51)
    a, b = out.split('\f')
    assert a.count('\n') == 51 and b.count('\n') == 2 and a.startswith(HEAD) and b.startswith(HEAD) and a.endswith('L\n')
    same(b[len(HEAD):len(HEAD) + 20], '%20d' % 1000)
    same(rows(100).count('\f'), 1)
    same(rows(101).count('\f'), 2)


@check(5)
def rising_and_present_only():
    im = image(4, {1: P(9, 1) + P(7, 1) + D(7, 2) + P(10, 1) + P(2, 1)})
    same([int(r.split()[0]) for r in rm.sheet_output(im, 16384).splitlines()[1:]], [2, 9, 10])


@check(5)
def refused_as_list_is():
    """m: the heading stands before a refusal"""
    im = image(4, {1: P(7, 1)})
    im[0] = 0
    same(rm.sheet_output(im, 16384), 'refused 2\n')
    same(rm.sheet_output([0] * 8704, 69_632), 'refused 1\n')
    ws = [w for k in range(2049) for w in P(k, 1)]
    many = image(16, {c: ws[512 * (c - 1):512 * c] for c in range(1, 10) if ws[512 * (c - 1):512 * c]})
    same(rm.sheet_output(many, 65_536), 'refused 7\n')
    same(rm.list_output(many, 65_536), 'refused 7\n')


# ================================================================ Card 6
def choice(logs, cards, lines={}, count=8, **kw):
    im = image(count, logs, lines=lines, **kw)
    return opened(im, cards).choose(im)


@check(6)
def equal_bytes_most_lines():
    """m: the fewest lines, or the lowest number as before"""
    logs = {1: P(1, 1), 2: P(2, 1), 3: P(3, 1)}
    same(choice(logs, {6}, {1: 2, 2: 5, 3: 4}), 2)
    same(choice(logs, (), {1: 2, 2: 5, 3: 4}), 1)


@check(6)
def equal_lines_highest_number():
    """m: of those the lowest"""
    same(choice({1: P(1, 1), 2: P(2, 1), 3: P(3, 1)}, {6}, {1: 3, 2: 3, 3: 2}), 2)
    same(choice({1: P(1, 1), 2: P(2, 1), 3: P(3, 1)}, {6}, {1: 3, 2: 3, 3: 3}), 3)


@check(6)
def fewest_bytes_come_first():
    """m: lines decide before bytes; m: bytes are compared in lines"""
    same(choice({1: P(1, 1), 2: P(2, 1, b'x')}, {6}, {1: 2, 2: 64}), 1)


@check(6)
def padding_is_not_counted():
    same(choice({1: P(1, 1) + [0] * 14 + P(4, 1), 2: P(2, 1) + P(5, 1)}, {6}, {1: 3, 2: 2}), 1)


@check(6)
def only_where_a_line_is_gained():
    """m: a chunk that would gain no line is chosen for its many lines"""
    full = [w for k in range(8) for w in P(100 + k, 1)]     # 128 bytes: 2 lines of 2
    logs = {1: full, 2: [w for k in range(8) for w in P(200 + k, 1)]}
    same(choice(logs, {6}, {1: 3}), 1)
    im = image(8, {1: full})
    no(16, opened(im, {6}).choose, im)


@check(6)
def nothing_to_copy_at_all():
    logs = {1: P(1, 1), 2: P(1, 2), 3: P(1, 3), 4: P(1, 4)}
    same(choice(logs, {6}, {1: 7, 2: 9, 3: 9, 4: 64}), 3)


@check(6)
def top_entries_tie_rule_untouched():
    im = image(8, {2: P(7, 1, b'ab'), 5: P(7, 1, b'ab')})
    st = opened(im, {6})
    same(st.look(im, 7)[0], 2 * 4096 + 16)
    same(st.choose(im), 5)                       # nothing to copy there: the chosen twin is in chunk 2


@check(6)
def wear_plays_no_part():
    """With Card 10 the committed lines are bits 8 to 31 only."""
    logs = {1: P(1, 1), 2: P(2, 1)}
    same(choice(logs, {6, 10}, {1: 3, 2: 2}, wear={1: 0, 2: 99}), 1)


@check(6)
def lines_of_large_chunks():
    same(choice({1: P(1, 1), 2: P(2, 1), 3: P(3, 1)}, {6, 11}, {1: 64, 2: 1000, 3: 999}, count=4, power=16), 2)


# ================================================================ Card 7
def half(count=8, **kw):
    """Chunk 1 log; chunk 2 data of 8 units, block 1 of key 5 lives; chunk 3 data of 8 units, block 0 of key 6 lives."""
    return image(count, {1: B(5, 1, 40) + B(6, 1, 48)},
                 {(2, 8): {0: picture(2000, 9), 1: picture(2000, 1)}, (3, 8): {0: picture(2040, 2)}}, **kw)


@check(7)
def one_block_to_the_first_other_chunk():
    im = half()
    st = opened(im, {7})
    same(st.clean(im, 2), 251 + 32 + 13 + 3)
    acts, end = actions(st, im)
    same(end, ('end', 1))
    same(acts[0], ('store', 56 * 32, 2000))      # chunk 3, block 1: unit 56
    same(acts[250][0:2], ('store', 56 * 32 + 250))
    same(acts[251:283], [('flush', 56 * 4 + i) for i in range(32)])
    same(acts[283:291], [('store', 520 + i, w) for i, w in enumerate([939_524_133, 5] + [0] * 6)])   # version 2
    same(acts[291:], [('flush', 65), ('fence',), ('store', 9, 513), ('flush', 1), ('fence',),
                      ('store', 10, 0), ('flush', 1), ('fence',)])
    same(st.look(im, 5), (56 * 256 + 8, picture(2000, 1), 2))
    same(im[10], 0)


@check(7)
def the_version_is_one_higher():
    """m: copied as a log entry is, with its version: a cut would leave twins with different pointers"""
    im = half()
    st = opened(im, {7})
    clean(st, im, 2)
    same(View(im, len(im) * 8, 64).highest(5), 2)
    same(View(im, len(im) * 8, 64).highest(6), 1)


@check(7)
def to_a_free_chunk_even_the_last():
    """m: three free chunks are asked for, as in staging"""
    im = image(4, {1: B(5, 1, 40)}, {(2, 8): {1: picture(2000)}})
    st = opened(im, {7})
    same(st.clean(im, 2), 2 + 251 + 32 + 13 + 3)
    acts, end = actions(st, im)
    same(acts[:3], [('store', 11, 2050), ('flush', 1), ('store', 48 * 32, 2000)])   # directory word first
    same(im[8:12], [0, 513, 0, 2050])
    unchanged(st, im, 13, st.stage, im, 9, picture(4000))


@check(7)
def blocks_and_log_each_a_free_chunk():
    """m: the log takes the chunk that the blocks have just taken"""
    full = B(5, 1, 40) + P(1, 1, b'')
    im = image(6, {1: full}, {(2, 8): {1: picture(2000)}}, lines={1: 64})
    st = opened(im, {7})
    st.clean(im, 2)
    actions(st, im)
    same(im[9:14], [1 | 64 << 8, 0, 2050, 257, 0])
    im = image(4, {1: full}, {(2, 8): {1: picture(2000)}}, lines={1: 64})
    st = opened(im, {7})
    unchanged(st, im, 13, st.clean, im, 2)       # one free chunk: blocks have it, log space lacks


@check(7)
def rising_blocks_and_one_target_each():
    """Entries in block order, not in that of the log; the second block finds the first one's place taken.
    m: a place is taken twice; m: entries in the order of the log"""
    im = image(8, {1: B(9, 1, 40) + B(5, 3, 32) + B(6, 1, 56)},
               {(2, 8): {0: picture(2000, 1), 1: picture(2040, 2)}, (3, 8): {1: picture(2040, 3)}})
    st = opened(im, {7})
    same(clean(st, im, 2), 2)
    same(im[520:524], B(5, 4, 48) + B(9, 2, 64))            # chunk 3 block 0, then chunk 4, the first free
    same((im[10], im[12]), (0, 2050))


@check(7)
def twelve_before_thirteen():
    """m: Card 1's limit doesn't bind a move; m: 13 first"""
    for cards, version, answer in (({7}, LAST, 12), ({7}, LAST - 1, None), ({1, 7}, LAST - 1, 12), ({1, 7}, LAST - 2, None)):
        im = image(6, {1: B(5, version, 40)}, {(2, 8): {1: picture(2000)}})
        st = opened(im, cards)
        unchanged(st, im, 12, st.clean, im, 2) if answer else clean(st, im, 2)
    im = image(4, {1: B(5, LAST, 40), 3: P(1, 1)}, {(2, 8): {1: picture(2000)}})
    st = opened(im, {7})
    unchanged(st, im, 12, st.clean, im, 2)       # no free chunk either
    im = image(4, {1: B(5, LAST - 1, 40), 3: P(1, 1)}, {(2, 8): {1: picture(2000)}})
    st = opened(im, {7})
    unchanged(st, im, 13, st.clean, im, 2)


@check(7)
def sixteen_loses_only_its_live_case():
    im = half()
    st = opened(im, {7})
    for c in (0, 4, 8, 504):
        unchanged(st, im, 16, st.clean, im, c)
    put(st, im, 1)
    unchanged(st, im, 15, st.clean, im, 2)
    st.abandon(im)
    base = opened(im, ())
    unchanged(base, im, 16, base.clean, im, 2)


@check(7)
def no_live_block_is_only_freed():
    im = image(4, {1: B(5, 1, 40) + D(5, 2)}, {(2, 8): {1: picture(2000)}})
    st = opened(im, {7})
    same(st.clean(im, 2), 3)
    same(actions(st, im), ([('store', 10, 0), ('flush', 1), ('fence',)], ('end', 0)))


@check(7)
def of_one_key_only_the_first():
    """Twins in two blocks (before Card 8): one copy, one entry. m: each block gets an entry"""
    im = image(6, {1: B(5, 1, 40) + B(5, 1, 32)}, {(2, 8): {0: picture(2000), 1: picture(2000)}})
    st = opened(im, {7})
    same(st.clean(im, 2), 2 + 251 + 32 + 13 + 3)
    same(actions(st, im)[1], ('end', 1))
    same(im[520:522], B(5, 2, 48))
    im = image(6, {1: B(9, 1, 37) + B(5, 1, 42) + B(5, 1, 32)}, {(2, 5): {0: picture(1200), 1: picture(1100), 2: picture(1200)}})
    st = opened(im, {7})
    same(clean(st, im, 2), 2)
    same(im[520:524], B(5, 2, 48) + B(9, 2, 53))            # key 5 by its first block, then 9


@check(7)
def its_own_block_size():
    """A value of 300 bytes in a block of 16 units goes to a block of 16 units. m: the smallest size that fits"""
    im = image(8, {1: B(5, 1, 32)}, {(2, 16): {0: picture(300)}, (3, 2): {0: picture(300)}, (4, 16): {0: picture(300)}})
    st = opened(im, {7})
    same(st.clean(im, 2), 39 + 5 + 13 + 3)
    actions(st, im)
    same(im[520:522], B(5, 2, 64))


@check(7)
def version_and_bytes_in_the_move():
    """Card 3 and 9: the former version and place until the freeing's fence, then the new; the same bytes always."""
    im = half()
    st = opened(im, {3, 7, 9})
    total = st.clean(im, 2)
    for i in range(total):
        same(st.look(im, 5), (40 * 256 + 8, picture(2000, 1), 1))
        st.step(im)
    same(st.look(im, 5), (56 * 256 + 8, picture(2000, 1), 2))
    same(st.step(im), ('end', 1))
    no(17, st.stage, im, 5, b'', 1)
    put(st, im, 5, b'', named=2)


@check(7)
def the_least_worn_in_a_move():
    """Card 10: chunk 5 (wear 1) for the blocks, then chunk 4 (wear 2) for the log; both keep their wear."""
    im = image(7, {1: B(5, 1, 40)}, {(2, 8): {1: picture(2000)}}, lines={1: 64}, wear={2: 7, 3: 3, 4: 2, 5: 1, 6: 3})
    st = opened(im, {7, 10})
    clean(st, im, 2)
    same(im[10:15], [8 << 32, 3 << 32, 2 << 32 | 257, 1 << 32 | 2050, 3 << 32])


@check(7)
def large_chunks():
    """Power 16: unit 2 * 256 + 85 moves to chunk 3, block 0; 85 units, three blocks in a chunk."""
    im = image(4, {1: B(5, 1, 597)}, {(2, 85): {1: picture(21_752)}}, power=16)
    st = opened(im, {7, 11})
    same(st.clean(im, 2), 2 + 2720 + 340 + 13 + 3)
    same(actions(st, im)[1], ('end', 1))
    same(im[8192 + 8:8192 + 10], B(5, 2, 768))
    same(im[8:12], [0, 513, 0, 2 | 85 << 8])


@check(7)
def cut_in_a_move():
    """The log's directory word decides: all the moved entries or none; every value of it opens."""
    im = image(8, {1: B(9, 1, 40) + B(5, 3, 32)}, {(2, 8): {0: picture(2000, 1), 1: picture(2040, 2)}})
    st, med = opened(im, {7, 8}), Medium(im)
    st.clean(im, 2)
    seen = set()
    while True:
        for w in med.possible(9):
            for d in med.possible(10):
                for t in med.possible(11):
                    other = list(im)
                    other[9], other[10], other[11] = w, d, t
                    v = View(other, len(other) * 8, 64, model=Model({7, 8}))
                    same(v.register(), {9: picture(2040, 2), 5: picture(2000, 1)})
                    seen.add((v.highest(9), v.highest(5)))
        r = st.step(im)
        if r[0] == 'end':
            break
        med.act(r)
    same(seen, {(1, 3), (2, 4)})


# ================================================================ Card 8
def twins(first, second, blocks={(3, 2): {0: picture(300), 1: picture(300), 2: picture(301)}}):
    return image(6, {1: first, 2: second}, blocks)


@check(8)
def equal_values_at_two_pointers():
    """m: values are compared as before"""
    im = twins(B(5, 2, 48), B(5, 2, 50))
    same((opens(im, ()), opens(im, {8})), (True, 6))


@check(8)
def the_same_entry_twice():
    """m: any second top entry is refused"""
    for e in (B(5, 2, 48), P(5, 2, b'abc'), P(5, 2), D(5, 2)):
        same((opens(twins(e, e), ()), opens(twins(e, e), {8})), (True, True))


@check(8)
def put_and_delete_as_before():
    im = twins(P(5, 2, b''), D(5, 2))
    same((opens(im, ()), opens(im, {8})), (6, 6))
    im = twins(P(5, 2, b'a'), P(5, 2, b'b'))
    same((opens(im, ()), opens(im, {8})), (6, 6))


@check(8)
def only_top_entries():
    """m: older entries of one version must be equal too"""
    same(opens(twins(B(5, 2, 48) + P(5, 3), B(5, 2, 50)), {8}), True)


@check(8)
def third_twin():
    same(opens(twins(B(5, 2, 48) + B(5, 2, 48), B(5, 2, 50)), {8}), 6)


@check(8)
def five_before_six():
    same(opens(twins(B(5, 2, 48), B(5, 2, 49)), {8}), 5)     # unit 1 is no start of a block
    same(opens(twins(B(5, 2, 48), B(6, 2, 48)), {8}), 6)     # two keys, one block


@check(8)
def a_cut_in_cleaning_opens():
    im = image(6, {1: B(5, 2, 48) + P(6, 1, b'x'), 2: P(9, 1)}, {(3, 2): {0: picture(300)}})
    st = opened(im, {8})
    st.clean(im, 1)
    for _ in range(13):
        st.step(im)                              # copied and fenced, not yet freed
    same(opens(im, {8}), True)
    same(len(View(im, len(im) * 8, 64).tops[5]), 2)


# ================================================================ Card 9
def at(version, entry=P):
    return image(8, {1: entry(7, version)})


@check(9)
def only_the_highest():
    """m: at least the named version; m: the version that the entry will get"""
    im = at(3)
    st = opened(im, {9})
    for wrong in (0, 1, 2, 4, LAST, TOP):
        unchanged(st, im, 17, st.stage, im, 7, b'', wrong)
        unchanged(st, im, 17, st.stage, im, 7, None, wrong)
    put(st, im, 7, b'', named=3)
    same(st.staged[-1].version, 4)


@check(9)
def zero_for_a_key_neither_known_nor_staged():
    """m: 0 for any absent key"""
    st, im = fresh(8, {9})
    unchanged(st, im, 17, st.stage, im, 7, b'', 1)
    put(st, im, 7, b'', named=0)
    unchanged(st, im, 17, st.stage, im, 7, b'', 0)
    put(st, im, 7, b'', named=1)
    im = at(2, D)
    st = opened(im, {9})
    unchanged(st, im, 17, st.stage, im, 7, b'', 0)
    put(st, im, 7, b'', named=2)
    same(st.staged[-1].version, 3)


@check(9)
def staged_counts():
    """m: committed versions alone"""
    im = at(3)
    st = opened(im, {9})
    put(st, im, 7)
    unchanged(st, im, 17, st.stage, im, 7, b'', 3)
    put(st, im, 7, b'', named=4)
    delete(st, im, 7, named=5)
    put(st, im, 7, b'', named=6)


@check(9)
def after_11():
    """m: 17 before 11"""
    im = at(2, D)
    st = opened(im, {9})
    unchanged(st, im, 11, st.stage, im, 7, None, 9)
    unchanged(st, im, 11, st.stage, im, 8, None, 5)
    unchanged(st, im, 11, st.stage, im, 8, None, 0)


@check(9)
def before_12_and_10_and_7():
    """m: 12 before 17"""
    im = at(LAST)
    st = opened(im, {9}, table=4)
    unchanged(st, im, 17, st.stage, im, 7, b'', 1)
    unchanged(st, im, 12, st.stage, im, 7, b'', LAST)
    unchanged(st, im, 17, st.stage, im, 8, b'', 1)
    unchanged(st, im, 7, st.stage, im, 8, b'', 0)
    im = at(3)
    st = opened(im, {9})
    for _ in range(16):
        put(st, im, 7)
    unchanged(st, im, 17, st.stage, im, 7, b'', 3)
    unchanged(st, im, 10, st.stage, im, 7, b'', 19)


@check(9)
def nine_first():
    im = at(3)
    st = opened(im, {9})
    unchanged(st, im, 9, st.stage, im, 7, bytes(4089), 1)
    st.stage(im, 7, b'')
    unchanged(st, im, 8, st.stage, im, 7, b'', 1)


@check(9)
def look_up_hands_out_the_version():
    im = image(8, {1: P(7, 1, b'a') + P(7, 5, b'b') + P(7, 3, b'c')})
    st = opened(im, {9})
    same((st.look_up_version(im, 7), st.look_up(im, 7)), (5, b'b'))
    put(st, im, 7)
    same(st.look_up_version(im, 7), 5)           # staged items are unseen
    commit(st, im)
    same(st.look_up_version(im, 7), 6)


@check(9)
def unnamed_as_before():
    im = at(3)
    st = opened(im, {9})
    put(st, im, 7)
    put(st, im, 8)
    delete(st, im, 8)
    same([(i.key, i.version) for i in st.staged], [(7, 4), (8, 1), (8, 2)])


@check(9)
def large_values_by_name():
    """13 is last: a named version that fits, no place."""
    im = image(4, {1: P(7, 3), 2: P(8, 1)})
    st = opened(im, {9})
    unchanged(st, im, 17, st.stage, im, 7, bytes(257), 2)
    unchanged(st, im, 13, st.stage, im, 7, bytes(257), 3)


# ================================================================ Card 10
@check(10)
def the_last_worked_case():
    st, im = fresh(4, {10})
    put(st, im, 7, b'abcde')
    put(st, im, 9, b'')
    commit(st, im)
    same(im[9], 257)
    delete(st, im, 9)
    commit(st, im)
    same(im[9], 513)
    same(clean(st, im, 1), 1)
    same((im[9], im[10]), (4_294_967_296, 257))


@check(10)
def the_least_worn_lowest_number_first():
    """m: the most worn, or the first; m: of equals the highest"""
    im = image(6, wear={1: 2, 2: 1, 3: 1, 4: 2, 5: 9})
    st = opened(im, {10})
    put(st, im, 7, b'')
    commit(st, im)
    same(im[9:14], [2 << 32, 4_294_967_553, 1 << 32, 2 << 32, 9 << 32])
    put(st, im, 8, picture(257))
    same(im[11], 4_294_967_296 + 514)


@check(10)
def the_count_stays_at_its_last():
    """m: it wraps to 0; m: it stops one early"""
    im = image(6, {1: P(7, 1), 2: P(7, 2), 3: P(7, 3)}, wear={1: 4_294_967_295, 2: 4_294_967_294, 3: 5})
    st = opened(im, {10})
    clean(st, im, 1)
    clean(st, im, 2)
    same((im[9], im[10]), (18_446_744_069_414_584_320, 18_446_744_069_414_584_320))
    same(opens(im, {10}), True)


@check(10)
def taking_and_appending_keep_the_count():
    """m: a chunk taken loses its count"""
    im = image(6, {1: P(7, 1)}, {(2, 8): {}}, wear={1: 3, 2: 4})
    st = opened(im, {10})
    put(st, im, 8)
    commit(st, im)
    same(im[9], 3 << 32 | 513)
    same(clean(st, im, 2), 0)
    same(im[10], 5 << 32)


@check(10)
def refusal_3():
    """m: unused words may carry a count; m: role 0 with bits below 32 is free"""
    im = image(6, {1: P(7, 1)}, wear={1: 3, 2: 4_294_967_295})
    same((opens(im, {10}), opens(im, ())), (True, 3))
    for c, word in ((0, 1 << 32), (6, 1 << 32), (503, 1 << 63), (2, 1 << 32 | 4), (2, 1 << 32 | 256), (2, 1 << 31), (2, 3),
                    (2, 1 << 32 | 65 << 8 | 1), (2, 1 << 32 | 1), (2, 1 << 32 | 2 | 6 << 8)):
        bad = list(im)
        bad[8 + c] = word
        same(opens(bad, {10}), 3)
    for word in (1 << 63 | 1 << 8 | 1, 1 << 40 | 5 << 8 | 2, 1 << 32):
        good = list(im)
        good[8 + 2] = word
        same(opens(good, {10}), True)


@check(10)
def three_must_still_be_free():
    im = image(4, {1: P(7, 1)}, wear={2: 9, 3: 8}, lines={1: 64})
    st = opened(im, {10})
    put(st, im, 7)
    unchanged(st, im, 13, st.commit, im)
    st.abandon(im)
    delete(st, im, 7)
    commit(st, im)                               # two suffice for deletes; chunk 3 is the less worn
    same(im[10:12], [9 << 32, 8 << 32 | 257])


@check(10)
def a_cut_leaves_the_count_before_or_after():
    im = image(6, {1: P(7, 1), 2: P(7, 2)}, wear={1: 3})
    st, med = opened(im, {10}), Medium(im)
    st.clean(im, 1)
    counts = set()
    for _ in range(4):
        counts |= {w >> 32 for w in med.possible(9)}
        r = st.step(im)
        if r[0] != 'end':
            med.act(r)
    same((counts, med.possible(9)), ({3, 4}, [4 << 32]))


@check(10)
def formatting_starts_at_0():
    im = image(6, wear={1: 7, 5: 9})
    st = Station(Model({10}))
    st.format(im)
    rm.run(st, im)
    same(im[8:512], [0] * 504)


@check(10)
def cleaning_copies_to_the_least_worn():
    im = image(6, {1: P(7, 1)}, wear={1: 1, 2: 5, 3: 4, 4: 4, 5: 6}, lines={1: 2})
    st = opened(im, {10})
    same(clean(st, im, 1), 1)
    same(im[9:14], [2 << 32, 5 << 32, 4 << 32 | 257, 4 << 32, 6 << 32])


# ================================================================ Card 11
def formatted(nbytes, cards={11}, **kw):
    im, st = [0] * (nbytes // 8), Station(Model(cards))
    st.format(im, **kw)
    rm.run(st, im)
    return im


@check(11)
def headers():
    """m: the field is written for 12 as well; m: it stands before the others"""
    same(formatted(262_144, power=16)[:8], [9, 4, 16, 0, 0, 0, 0, W64 - 29])
    same(formatted(262_144, power=16, station=7, centre=8)[:8], [15, 4, 7, 8, 16, 0, 0, W64 - 50])
    same(formatted(262_144, power=12)[:8], [1, 64, 0, 0, 0, 0, 0, W64 - 65])
    st = Station(Model({11}))
    same(st.format([0] * 32768, power=16), 582)


@check(11)
def powers_and_lengths_in_formatting():
    """m: another power gets 2"""
    st = Station(Model({11}))
    for power in (0, 11, 13, 14, 15, 17, 4096):
        no(1, st.format, [0] * 32768, None, None, power)
    no(1, st.format, [0] * (3 * 8192), None, None, 16)      # three large chunks
    st.format([0] * (3 * 8192), None, None, 12)             # 48 small ones
    st = Station(Model({11}))
    no(1, st.format, [0] * (608 * 512), None, None, 12)     # 608 small, but 38 large
    st.format([0] * (608 * 512), None, None, 16)
    no(1, st.format, [0] * 512, None, None, 13)             # 1 before 8
    no(8, st.format, [0] * 32768, None, None, 16)


def head(nbytes, *fields):
    im = [0] * (nbytes // 8)
    im[:len(fields)] = fields
    im[7] = -sum(fields) % W64
    return opens(im, {11})


@check(11)
def opening_by_power_and_count():
    """m: power 12 in the field is refused; m: a length for the other power gets 1"""
    same(head(262_144, 9, 4, 16), True)
    same(head(262_144, 9, 64, 12), True)
    same(head(262_144, 1, 64), True)
    for wrong in ((9, 64, 16), (9, 4, 12), (1, 4), (9, 32, 13), (9, 4, 0), (11, 4, 16, 0), (11, 4, 7, 15), (8, 4, 16), (17, 4)):
        same(head(262_144, *wrong), 2)
    same(head(3 * 65_536, 9, 3, 16), 2)
    same(head(608 * 4096, 1, 608), 2)
    same(head(608 * 4096, 9, 38, 16), True)
    same(head(505 * 4096, 1, 505), 1)
    same(head(262_144 + 4096, 9, 4, 16), 2)      # 65 small chunks: the length may be, the header doesn't fit
    same(head(262_144 + 64, 9, 4, 16), 1)


@check(11)
def sizes_of_large_chunks():
    """m: the smallest power of two; m: u itself"""
    t = [int(x) for x in rm.size_table_output().split('\n')[:-1]]
    same(len(t), 257)
    want = {0: 0, 1: 0, 2: 2, 3: 3, 5: 5, 16: 16, 17: 17, 19: 19, 20: 21, 22: 23, 24: 25, 26: 28, 29: 32, 33: 36, 37: 42,
            42: 42, 43: 51, 51: 51, 52: 64, 64: 64, 65: 85, 85: 85, 86: 128, 128: 128, 129: 256, 256: 256}
    same({u: t[u] for u in want}, want)
    same([rm.GEOMETRY[12].table[u] for u in range(17)], [0, 0, 2, 3, 4, 5] + [8] * 3 + [16] * 8)
    for p in range(12, 17):                      # the smallest of the sizes that fits, at every power
        g = rm.GEOMETRY[p]
        same([min(s for s in g.sizes if s >= u) for u in range(2, g.units + 1)], g.table[2:])


@check(11)
def limits_of_values():
    st, im = fresh(4, {11}, power=16)
    unchanged(st, im, 9, st.stage, im, 7, bytes(65_529))
    same(st.stage(im, 7, bytes(65_528)), 2 + 8192 + 1024)
    same(rm.run(st, im), ('end',))
    same(im[9], 2 | 256 << 8)
    st, im = fresh(64, {11})                     # small chunks of the same length
    unchanged(st, im, 9, st.stage, im, 7, bytes(4_089))
    st, im = fresh(4, {11}, power=16)
    put(st, im, 7, bytes(4_089))
    same(im[9], 4_354)                           # 17 units
    st, im = fresh(4, {11}, power=16)
    put(st, im, 7, bytes(20 * 256 - 8))          # 20 units: 256 / (256 / 20 = 12) = 21
    same(im[9], 2 | 21 << 8)


@check(11)
def pointers_and_blocks():
    """m: a pointer counts sixteen units to a chunk"""
    st, im = fresh(6, {11}, power=16)
    put(st, im, 7, picture(257))                 # chunk 1, unit 256
    put(st, im, 8, picture(300, 5))              # the same chunk, unit 258
    commit(st, im)
    same(im[2 * 8192:2 * 8192 + 4], [1 | 4 | 16 | 256 << 24, 7, 1 | 4 | 16 | 258 << 24, 8])
    same(st.look(im, 8), (65_536 + 2 * 256 + 8, picture(300, 5), 1))


@check(11)
def limits_of_directory_words():
    for low, answer in ((1 | 1024 << 8, True), (1 | 1025 << 8, 3), (1, 3), (2 | 6 << 8, True), (2 | 17 << 8, True), (2 | 20 << 8, 3),
                        (2 | 256 << 8, True), (2 | 1 << 8, 3), (2 | 86 << 8, 3)):
        im = image(4, power=16)
        im[9] = low
        same(opens(im, {11}), answer)
    for low in (1 | 65 << 8, 2 | 6 << 8):
        im = image(4)
        im[9] = low
        same(opens(im, {11}), 3)


@check(11)
def batch_limit_stays():
    st, im = fresh(4, {11}, power=16)
    for k in range(15):
        put(st, im, k, bytes(256))
    no(10, st.stage, im, 99, bytes(256))
    delete(st, im, 3)
    no(10, st.stage, im, 3, b'')
    same(st.commit(im), 9 * 64 + 4)
    rm.run(st, im)
    same(im[9], 1 | 64 << 8)
    put(st, im, 3, b'')
    commit(st, im)
    same(im[9], 1 | 65 << 8)                     # the chunk has 1,024 lines


@check(11)
def without_the_card():
    im = formatted(262_144, power=16)
    same(opens(im, ()), 2)
    no(1, Station(Model()).format, [0] * 32768, None, None, 16)


@check(11)
def list_sees_small_images_only():
    im = formatted(262_144, power=16)
    same(rm.list_output(im, 262_144, Model({11})), 'refused 1\n')
    im = [9, 1, 16, 0, 0, 0, 0, W64 - 26] + [0] * 8184
    same(rm.list_output(im, 65_536, Model({11})), 'refused 2\n')


# ================================================================ Card 12
@check(12)
def stagings():
    """m: a free chunk's directory word is forgotten"""
    st, im = fresh(6, {12})
    same(st.estimate_stage(im, 7, b'abc'), (0, 0, 0, 0))
    same(st.estimate_stage(im, 7, bytes(257)), (35, 6, 0, 1))       # 1 + 34 stores, 1 + 5 flushes
    put(st, im, 7, bytes(257))
    same(st.estimate_stage(im, 8, bytes(257)), (34, 5, 0, 0))
    same(st.estimate_stage(im, 8, bytes(4088)), (513, 65, 0, 1))
    unchanged(st, im, 11, st.estimate_stage, im, 8, None)
    unchanged(st, im, 9, st.estimate_stage, im, 8, bytes(4089))


@check(12)
def commits():
    st, im = fresh(6, {12})
    unchanged(st, im, 14, st.estimate_commit, im)
    put(st, im, 7, bytes(256))                   # 272 bytes: 5 lines
    same(st.estimate_commit(im), (41, 6, 2, 1))
    commit(st, im)
    delete(st, im, 7)
    same(st.estimate_commit(im), (9, 2, 2, 0))   # m: a log chunk already there counts as taken


@check(12)
def cleanings():
    """m: the chunk that is freed counts"""
    im = image(6, {1: P(7, 1), 2: P(7, 2)})
    st = opened(im, {12})
    same(st.estimate_clean(im, 1), (1, 1, 1, 0))
    same(st.estimate_clean(im, 2), (10, 3, 3, 0))
    im = image(6, {1: P(7, 1)})
    st = opened(im, {12})
    same(st.estimate_clean(im, 1), (10, 3, 3, 1))
    unchanged(st, im, 16, st.estimate_clean, im, 2)
    put(st, im, 1)
    unchanged(st, im, 15, st.estimate_clean, im, 1)


@check(12)
def moves():
    im = image(6, {1: B(5, 1, 40) + P(1, 1)}, {(2, 8): {1: picture(2000)}}, lines={1: 64})
    same(opened(im, {7, 12}).estimate_clean(im, 2), (1 + 251 + 9 + 1, 1 + 32 + 2 + 1, 3, 2))
    im = half()
    same(opened(im, {7, 12}).estimate_clean(im, 2), (251 + 9 + 1, 32 + 2 + 1, 3, 0))
    unchanged(opened(im, {12}), im, 16, opened(im, {12}).estimate_clean, im, 2)


@check(12)
def nothing_is_done():
    """m: the estimate stages the item"""
    im = image(6, {1: P(7, 1)})
    st = opened(im, ALL)
    keep = list(im)
    st.estimate_stage(im, 8, bytes(300))
    st.estimate_clean(im, 1)
    same((im, st.staged, st.pending, st.step(im)), (keep, [], None, ('idle',)))
    no(14, st.commit, im)
    put(st, im, 8)
    st.estimate_commit(im)
    same(len(st.staged), 1)
    same(im, keep)


@check(12)
def refusals_of_the_call():
    im = image(4, {1: P(7, 3), 2: P(8, 1)}, lines={1: 64, 2: 64})
    st = opened(im, ALL)
    unchanged(st, im, 13, st.estimate_stage, im, 7, bytes(257))
    unchanged(st, im, 17, st.estimate_stage, im, 7, bytes(257), 2)
    unchanged(st, im, 17, st.estimate_stage, im, 7, None, 2)
    put(st, im, 7)
    unchanged(st, im, 13, st.estimate_commit, im)
    st.stage(im, 7, b'')
    unchanged(st, im, 8, st.estimate_commit, im)
    unchanged(st, im, 8, st.estimate_clean, im, 1)
    rm.run(st, im)
    st.open_length = None
    no(2, st.estimate_commit, im)


@check(12)
def then_just_these():
    im = image(8, {1: B(5, 1, 40) + P(1, 1)}, {(2, 8): {1: picture(2000)}}, lines={1: 64})
    for call in ('stage', 'clean 1', 'clean 2'):
        m = list(im)
        st = opened(m, ALL)
        name, args = ('stage', (9, bytes(4000))) if call == 'stage' else ('clean', (int(call[-1]),))
        told = getattr(st, 'estimate_' + name)(m, *args)
        free = [c for c in range(1, 8) if m[8 + c] & 3 == 0]
        getattr(st, name)(m, *args)
        acts, _ = actions(st, m)
        kinds = [a[0] for a in acts]
        same(told, tuple(kinds.count(k) for k in ('store', 'flush', 'fence')) + (sum(m[8 + c] & 3 != 0 for c in free),))


# ================================================================ Card 13
def trial(seed, turns, keys, lengths, cards=()):
    return rm.trial_output(f'{seed}\n{turns}\n{keys}\n{lengths}\n', Model(cards))


@check(13)
def no_turns():
    same(trial(1, 0, 1, 1), '0\n0\n0\n0\n')


@check(13)
def first_draw():
    """Seed 1 draws 1,082,269,761: 1 mod 4, a look-up of an absent key; 11 isn't counted. m: 11 counts"""
    same(rm.xorshift64(1), 1_082_269_761)
    same(trial(1, 1, 1, 1), '1\n0\n0\n0\n')
    same(rm.xorshift64(2 ** 63) < W64, True)


@check(13)
def bad_input():
    good = '1\n1\n1\n1\n'
    assert rm.trial_output(good, Model()) != 'bad\n'
    for text in ('', '1\n1\n1\n1', '1\n1\n1\n', good + '1\n', good + '\n', '\n' + good, '1 1 1 1\n', '1\r\n1\r\n1\r\n1\r\n', '+1\n1\n1\n1\n',
                 '-1\n1\n1\n1\n', ' 1\n1\n1\n1\n', '0\n1\n1\n1\n', f'{W64}\n1\n1\n1\n', '1\n100001\n1\n1\n', '1\n1\n0\n1\n',
                 '1\n1\n1001\n1\n', '1\n1\n1\n0\n', '1\n1\n1\n4090\n', '0' * 20 + '1\n1\n1\n1\n', '\u0661\n1\n1\n1\n', '1\n\n1\n1\n', '0x1\n1\n1\n1\n'):
        same(rm.trial_output(text, Model()), 'bad\n')
    same(rm.trial_output('0' * 19 + '1\n1\n1\n1\n', Model()), '1\n0\n0\n0\n')
    same(rm.trial_output(f'{W64 - 1}\n0\n1000\n4089\n', Model()), '0\n0\n0\n0\n')


def by_hand(seed, turns, keys):
    """The trial with empty values and K below 5, by a little book of lines: each commit is one line of a log chunk.
    Chunks whose lines hold no chosen entry copy nothing; with many chunks and few keys there always is one."""
    chunks, where, present, x = {}, {}, set(), seed
    refusals = cleanings = 0
    for _ in range(turns):
        x ^= x << 13 & W64 - 1
        x ^= x >> 7
        x ^= x << 17 & W64 - 1
        k, kind = x // 4 % keys, x % 4
        if kind in (1, 2) or (kind == 3 and k not in present):
            continue
        need = 3 if kind == 0 else 2
        for attempt in (1, 2):
            room = [c for c in sorted(chunks) if chunks[c] < 64]
            if not room:
                free = [c for c in range(1, 16) if c not in chunks]
                if len(free) < need:
                    refusals += 1
                    if attempt == 2:
                        break
                    idle = [c for c in sorted(chunks) if c not in where.values()]
                    del chunks[idle[0]]
                    cleanings += 1
                    continue
                room = free[:1]
                chunks[room[0]] = 0
            chunks[room[0]] += 1
            where[k] = room[0]
            (present.add if kind == 0 else present.discard)(k)
            break
    return f'{turns}\n{refusals}\n{cleanings}\n0\n'


@check(13)
def counted_by_hand():
    """m: a first try that gets 13 isn't counted; m: a cleaning is counted only if something was copied"""
    got = trial(5, 4000, 2, 1)
    same(got, by_hand(5, 4000, 2))
    assert int(got.split()[2]) > 5
    same(trial(5, 1500, 1, 1), by_hand(5, 1500, 1))


@check(13)
def two_refusals_in_one_turn():
    """Only large values of sixteen units: a put takes a data chunk each until fewer than three are free; no log chunk frees
    them. Choosing finds a log chunk with a superseded line or none (16); either way first try and second refusal count."""
    seed, x, puts, looks = 3, 3, [], 0
    turns = 160
    for _ in range(turns):
        x = rm.xorshift64(x)
        puts.append((x % 4, x // 4 % 1000, x // 65_536 % 4089))
    st, im = fresh(16, (), table=4096)
    wrong = cleaned = copied = 0
    for kind, k, n in puts:                       # once more, written as the card tells it, call by call
        def attempt():
            try:
                st.stage(im, k, bytes(n) if kind == 0 else None)
                rm.run(st, im)
                st.commit(im)
                rm.run(st, im)
                return 0
            except Refused as r:
                return r.number
        if kind in (1, 2):
            continue
        r = attempt()
        if r and r != 11:
            wrong += 1
        if r == 13:
            if st.staged:
                st.abandon(im)
            try:
                c = st.choose(im)
            except Refused:
                wrong += 1
                continue
            try:
                st.clean(im, c)
            except Refused:
                wrong += 1
                continue
            copied += rm.run(st, im)[1]
            cleaned += 1
            r = attempt()
            wrong += r not in (0, 11)
        if st.staged:
            st.abandon(im)
    same(trial(3, turns, 1000, 4089), f'{turns}\n{wrong}\n{cleaned}\n{copied}\n')
    assert wrong > 2


@check(13)
def lengths_by_mod():
    """L = 1 gives empty values only; L = 2 up to one byte. The draw is divided by 65,536 before the remainder."""
    x, seen = 11, []
    for _ in range(200):
        x = rm.xorshift64(x)
        if x % 4 == 0:
            seen.append(x // 65_536 % 257)
    assert max(seen) <= 256                       # no blocks: nothing can get 13 in a first chunk of sixteen
    same(trial(11, 20, 10, 257).split()[1:], ['0', '0', '0'])


@check(13)
def rules_in_force():
    """Card 6 and Card 10 may change what is chosen and taken; the other cards change no count of this run."""
    base = trial(9, 1200, 3, 300)
    for c in (1, 2, 3, 4, 5, 7, 8, 9, 11, 12, 14):
        same(trial(9, 1200, 3, 300, {c}), base)


# ================================================================ Card 14
def both(cards, table=64, count=6):
    st, im = fresh(count, cards, table=table)
    return st, im


def reopen(st, im):
    """Closed and opened over the same bytes."""
    other, copy = Station(st.model), list(im)
    other.open(copy, st.table_words)
    return other, copy


def twice(st, im, calls):
    """The calls on the station and on one closed and opened again: the answers of both, which must be the same."""
    other, copy = reopen(st, im)
    outs = []
    for s, m in ((st, im), (other, copy)):
        out = []
        for name, *args in calls:
            try:
                r = getattr(s, name)(m, *args)
            except Refused as e:
                r = ('refused', e.number)
            out.append(r)
            if s.pending:
                out.append(actions(s, m))
        outs.append(out)
    same(outs[0], outs[1])
    same(im, copy)
    return outs[0]


@check(14)
def a_key_cleaned_away_makes_room():
    """Table of 8 words: two keys. m: a station still counts a key whose entries are gone"""
    st, im = both(ALL, table=8)
    put(st, im, 1)
    put(st, im, 2)
    commit(st, im)
    delete(st, im, 2)
    commit(st, im)
    same(twice(st, im, [('stage', 3, b'')]), [('refused', 7)])
    same(clean(st, im, 1), 1)
    same(twice(st, im, [('stage', 3, b''), ('commit',)])[0], 0)
    same(st.look_up(im, 3), b'')


@check(14)
def an_abandoned_block_is_used_again():
    st, im = both({7, 14})
    put(st, im, 1, picture(2000))
    st.abandon(im)
    out = twice(st, im, [('stage', 2, picture(1900))])
    same(out[0], 1 + 238 + 30)                    # chunk 1 is a data chunk already, its block 0 free
    same(out[1][0][0], ('store', 512, 1900))


@check(14)
def versions_of_a_forgotten_key():
    st, im = both({9, 14})
    put(st, im, 1)
    commit(st, im)
    delete(st, im, 1)
    commit(st, im)
    same(clean(st, im, 1), 0)
    same(twice(st, im, [('stage', 1, b'', 2), ('stage', 1, b'', 0)])[:2], [('refused', 17), 0])   # m: the version lives on


@check(14)
def the_first_twin_after_a_cut():
    """Cleaning chunk 2 is cut before the freeing: twins in 1 and 2; the chosen is the first, whoever looks.
    m: the place last written"""
    im = image(6, {1: P(9, 1), 2: P(7, 1, b'ab')})
    st = opened(im, {14})
    st.clean(im, 2)
    for _ in range(13):
        st.step(im)
    st = opened(im, {14})
    same(twice(st, im, [('look', 7), ('choose',)]), [(4096 + 64 + 16, b'ab', 1), 2])
    put(st, im, 7, b'')
    st.abandon(im)
    same(twice(st, im, [('clean', 2)])[1][1], ('end', 0))


@check(14)
def after_a_move_and_a_freeing():
    im = half(wear={2: 3})
    st = opened(im, ALL)
    clean(st, im, 2)
    out = twice(st, im, [('look', 5), ('stage', 8, picture(2000)), ('commit',), ('look', 8), ('next_key', 0)])
    same(out[0], (56 * 256 + 8, picture(2000, 1), 2))
    same(out[1], 2 + 251 + 32)
    same(out[2][0][0], ('store', 12, 2050))       # chunk 4, not the worn chunk 2


@check(14)
def no_keys_left():
    st, im = both(ALL)
    put(st, im, 4)
    commit(st, im)
    delete(st, im, 4)
    commit(st, im)
    lent = [5]
    same(twice(st, im, [('next_key', 0), ('keys_between', 0, 9, lent), ('choose',), ('clean', 1), ('choose',)])[:3], [('refused', 11), 0, 1])
    same(lent, [5])


@check(14)
def tables_as_at_the_opening():
    st, im = both(ALL)
    other, copy = reopen(st, im)
    for s, m in ((st, im), (other, copy)):
        s.lent_table = s.lent_second = 60
        no(1, s.stage, m, 1, b'')


if __name__ == '__main__':
    only = {int(a) for a in sys.argv[1:]}
    passed = failed = 0
    for card, f in CHECKS:
        if only and card not in only:
            continue
        try:
            f()
            passed += 1
        except Exception as e:
            failed += 1
            where = traceback.extract_tb(e.__traceback__)
            line = [t.lineno for t in where if t.filename.endswith('check_cards.py')]
            print(f'card {card}: {f.__name__}: {type(e).__name__} {str(e)[:300]} (lines {line})')
    print(f'{passed} passed, {failed} failed')
    sys.exit(failed > 0)
