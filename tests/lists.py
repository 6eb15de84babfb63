"""The programs `list` and `sheet` on images, against what the model of document 01 and of request 5 prints of them;
and `zkv sheet`, on the same images and on larger ones.

python3 tests/lists.py              writes stdin and stdout of crates/list, document 01's case of four chunks, and of
                                    crates/sheet, a register of 101 labels
python3 tests/lists.py --check      compares them with the files kept; exit status 1 on a difference
python3 tests/lists.py --run LIST SHEET ZKV
                                    runs the three programs on every case; exit status 1 on a difference

Bytes are compared. Nothing of the Rattle code or of zkv is asked for the expected output. Beside a damaged image stands
the number that the table of document 01 gives, and the model must say the same. The comparison is first shown to find a
changed key, version, length, place and number of keys, and one label more, at the end of a page too.

Of every sheet that is printed it is also asked, whatever the model says: whether each page has the heading, each line
36 columns with the numbers right in them, keys rise, and 50 rows stand on every page but the last, which has at least
one (of no label: the heading alone). How many pages so many labels have stands in a table of its own, PAGES. That these
questions find wrong sheets is shown first, on some that are made here.

`zkv sheet` must print what `sheet` prints of each image that `sheet` accepts, and else refuse with the same number, in
its own words. But it takes up to 504 chunks, and its table holds 65,536 keys and not 2,048: what it prints of such
images, which `sheet` refuses with 1 and with 7, is compared with the model's entries, laid out here.
"""
import os
import re
import resource
import signal
import subprocess
import sys
import tempfile
from collections import namedtuple

sys.dont_write_bytecode = True
import make_images as images
from make_images import Made, Numbers, WORD, at, blocks, changed, log, pattern, small
from landed import View, list_output, sheet_output
from register_model import SIZES, UNITS, Refused, bytes_of, first_word, header_words, words_of

HEADING = b'                 KEY VERSION BYTES P'
PAGE_ROWS = 50
PAGES = {0: 1, 1: 1, 49: 1, 50: 1, 51: 2, 99: 2, 100: 2, 101: 3, 151: 4, 900: 18}       # of so many labels
KEPT = 101                                              # labels of the register that is kept with its sheet
HIGHEST = 1_048_575                                     # version
IMAGE_MOST = 65_536                                     # bytes that list and sheet take
ZKV_TABLE = 262_144                                     # words that zkv lends


def image(words):
    return bytes_of(words, 0, 8 * len(words))


def four_chunks():
    """Document 01: put 7 of five bytes and put 9 empty; then delete 9."""
    m = Made(4).put(7, b'abcde').put(9, b'').commit().delete(9).commit()
    assert m.words[9] == 513
    return m.words


# an image, what each program prints of it, and how many labels it has, where that is said
Case = namedtuple('Case', 'title data list sheet labels')


class Cases:
    def __init__(self):
        self.cases = []

    def add(self, title, words, nbytes=None, number=None, labels=None):
        """An image of so many bytes; where a number is given the model must refuse with it, 0 being none."""
        whole = image(words)
        nbytes = len(whole) if nbytes is None else nbytes
        data = (whole + bytes(nbytes))[:nbytes]
        listed, sheet = (output(words_of(data[:nbytes // 8 * 8]), nbytes).encode() for output in (list_output, sheet_output))
        refused = listed.startswith(b'refused')
        assert sheet == listed if refused else sheet.startswith(HEADING), (title, listed, sheet)
        if number is not None:
            assert refused == (number > 0) and (not refused or listed == b'refused %d\n' % number), (title, listed)
        self.cases.append(Case(title, data, listed, sheet, labels))


# each image of tests/make_images.py, its words and its length alone
class Takes(images.Script):
    def __init__(self, cases):
        super().__init__()
        self.cases = cases

    def image(self, title, words, keys, nbytes=None, table=64, number=None, places=False):
        self.cases.add(title, words, nbytes)


def lengths(s):
    full = Made(16).put(3, b'x').commit().words
    s.add('no byte', [], 0, 1)
    s.add('16,383 bytes', small(), 16_383, 1)
    s.add('16,384 bytes', small(), 16_384, 0)
    s.add('16,385 bytes', small(), 16_385, 1)
    s.add('65,535 bytes', full, 65_535, 1)
    s.add('65,536 bytes', full, 65_536, 0)
    s.add('65,537 bytes', full, 65_537, 1)
    s.add('69,632 bytes, a whole image of 17 chunks', Made(17).words, None, 1)
    s.add('200,000 bytes', full, 200_000, 1)


def refusals(s):
    f = first_word
    s.add('1', small(), 4_095, 1)
    s.add('2', changed({0: 0}), None, 2)
    s.add('3', changed({11: 3}), None, 3)
    s.add('4', changed({images.NEW: 3}), None, 4)
    s.add('5', changed({515: f(1, 1, 1, 0)}), None, 5)
    s.add('6', changed(at(images.NEW, f(1, 0, 2, 0), 7, f(2, 0, 2, 0), 7)), None, 6)
    s.add('7: 2,049 keys', many(2049), None, 7)
    s.add('7: neighbour: 2,048 keys', many(2048), None, 0)
    s.add('7: 2,049 keys, one of them deleted', changed({512: f(2, 0, 1, 0)}, many(2049)), None, 7)
    s.add('7: neighbour: 2,048 keys, one of them deleted', changed({512: f(2, 0, 1, 0)}, many(2048)), None, 0)


def many(n, key=lambda i: (i * 0x9E37_79B9_7F4A_7C15 + 1) % WORD, chunks=16):
    """So many chunks with n empty puts of scattered keys."""
    w = header_words(chunks) + [0] * (chunks * 512 - 8)
    for i in range(n):
        c, j = 1 + i // 256, i % 256
        w[512 * c + 2 * j:512 * c + 2 * j + 2] = [first_word(1, 0, 1 + i % 1_048_575, 0), key(i)]
        w[8 + c] = log(j // 4 + 1)
    return w


def data_chunk(size):
    """The role of a chunk with blocks of so many units, and its words: as many bytes in each block as it holds, or
    a few less."""
    w = [0] * 512
    for j in range(UNITS // size):
        n = size * 256 - 8 - j
        w[32 * size * j:32 * size * j + 1 + (n + 7) // 8] = [n] + words_of(pattern(n, j))
    return blocks(size), w


def register_of(labels):
    """So many labels, in the log and in blocks, of versions to the highest, key 0 and the highest among them; entries
    in no order, some of them superseded; and deleted keys, which are known and not present. No chunk is left over."""
    r, f = Numbers(labels), first_word
    keys = [0, WORD - 1] + [(i * 0x9E37_79B9_7F4A_7C15 + 1) % WORD >> 7 * i % 60 for i in range(2 * labels + 90)]
    keys = list(dict.fromkeys(keys))[:labels + 1 + labels // 7]
    sizes = (2, 5, 16)
    free = [UNITS * c + size * j for c, size in enumerate(sizes, 1) for j in range(UNITS // size)]
    entries = []
    for i, key in enumerate(keys):
        version = HIGHEST - i % 3 if i % 11 == 1 else r.of([1, 2, 9, 10, 4_711, 99_999, 100_000])
        if i >= labels:
            entries.append([f(2, 0, version, 0), key])
        elif i % 7 == 3 and free:
            entries.append([f(1, 1, version, free.pop()), key])
        else:
            n = 256 if i % 50 == 7 else r.of([0, 1, 8, 9, 40])
            entries.append([f(1, 0, version, n), key] + words_of(pattern(n, i)))
        if (i % 4 == 1 or i >= labels) and version > 1:     # superseded; what its pointer says is not asked
            entries.append(r.of([[f(2, 0, version - 1, 0), key], [f(1, 0, 1, 3), key, 5], [f(1, 1, 1, 0), key]]))
    logs = [[]]
    for _, e in sorted((r.below(1 << 30), e) for e in entries):
        if len(logs[-1]) + len(e) > 512:
            logs.append([])
        logs[-1] += e
    chunks = [data_chunk(size) for size in sizes] + [(log((len(words) + 7) // 8), words) for words in logs]
    w = header_words(1 + len(chunks)) + [0] + [role for role, _ in chunks] + [0] * (503 - len(chunks))
    for _, words in chunks:
        w += words + [0] * (512 - len(words))
    return w


def sheets(s):
    for n in PAGES:
        s.add(f'{n} labels', register_of(n), None, 0, n)
        s.add(f'{n} labels, no block and no other key', many(n), None, 0, n)
    kept = sheet_output(register_of(KEPT), 8 * len(register_of(KEPT)))
    assert all(part in kept for part in (f'\n{0:20} ', f'\n{WORD - 1} ', f' {HIGHEST} ', ' L\n', ' B\n')), kept


def orders(s):
    high = lambda i: (i * 7919 % 2048) << 32 | (i * 104729 % 65_536)
    s.add('keys that differ in their high half first', many(600, high), None, 0)
    s.add('keys that fall', many(500, lambda i: WORD - 1 - i), None, 0)
    s.add('keys that rise', many(500, lambda i: i), None, 0)
    ends = (0, WORD - 1, 1 << 63, (1 << 63) - 1, 1 << 32, (1 << 32) - 1, 1, 10, 9)
    s.add('keys at the ends of the numbers', many(len(ends), lambda i: ends[i]), None, 0)


def values(s):
    m = Made(16)
    for i, size in enumerate(SIZES):
        for j, n in enumerate((257 if size == 2 else SIZES[i - 1] * 256 - 7, size * 256 - 8)):
            m.put(10 * size + j, pattern(n, size + j))
    m.commit()
    s.add('a block of each size, the least and the most that it holds', m.words, None, 0)
    m.put(20, b'small').delete(21).put(30, pattern(700, 1)).commit()
    s.add('blocks superseded by a small value, a delete and another block', m.words, None, 0)
    m.put(20, b'').delete(20).put(20, pattern(256, 3)).delete(30).commit()
    s.add('deleted and put again', m.words, None, 0)
    m = Made(4)
    for n in (0, 1, 2, 3, 8, 9, 255, 256):
        m.put(n, pattern(n, n))
    s.add('short values, 0 to 256 bytes', m.commit().words, None, 0)
    highest = at(images.NEW, first_word(1, 0, 1_048_575, 1), 13, 65, first_word(2, 0, 1_048_575, 0), 12)
    s.add('versions to the highest', changed(highest), None, 0)


def at_random(s, seed):
    """Puts, large ones too, and deletes of few keys by the model's calls, as far as they go."""
    r = Numbers(seed)
    m = Made(r.of([4, 8, 16]))
    keys = [r.below(1 << 31) * r.of([1, 1 << 33, 3]) for _ in range(12)]
    try:
        for _ in range(r.of([3, 12, 40])):
            for _ in range(1 + r.below(6)):
                k = r.of(keys)
                if r.below(4) == 0:
                    try:
                        m.delete(k)
                    except Refused as n:
                        if n.number != 11:
                            raise
                else:
                    m.put(k, pattern(r.of([0, 1, 5, 200, 256, 257, 900, 4088]), r.below(9)))
            try:
                m.commit()
            except Refused as n:
                if n.number != 14:
                    raise
    except Refused as n:
        assert n.number in (10, 13), n.number
    s.add(f'calls at random {seed}', m.words, None, 0)


def all_cases():
    s = Cases()
    s.add('document 01', four_chunks(), None, 0, 1)
    assert s.cases[0].list == b'keys 1\n7 1 5 L\n'
    assert s.cases[0].sheet == HEADING + b'\n                   7       1     5 L\n'
    lengths(s)
    refusals(s)
    sheets(s)
    orders(s)
    values(s)
    for seed in range(40):
        at_random(s, seed)
    takes = Takes(s)
    images.whole_images(takes)
    images.damaged_images(takes)
    images.twins(takes)
    for seed in range(60):
        images.foreign(takes, seed)
    return s.cases


# ---- the layout, asked of what was printed

def right_row(row):
    numbers, blanks = (row[:20], row[21:28], row[29:34]), (row[20:21], row[28:29], row[34:35])
    return all(re.fullmatch(rb' *(0|[1-9][0-9]*)', n) for n in numbers) and set(blanks) == {b' '} and row[35:] in (b'L', b'B')


def pages_of(sheet):
    """How many rows each page of a sheet has; None of what is no sheet."""
    pages, keys = [], []
    for page in sheet.split(b'\f'):
        heading, *rows = page.split(b'\n')
        if heading != HEADING or rows[-1:] != [b''] or not all(len(row) == 36 and right_row(row) for row in rows[:-1]):
            return None
        keys += [int(row[:20]) for row in rows[:-1]]
        pages.append(len(rows) - 1)
    *full, last = pages
    if any(n != PAGE_ROWS for n in full) or last > PAGE_ROWS or (last == 0 and full) or keys != sorted(set(keys)):
        return None
    return pages


def wrong_sheets(sheet):
    """Others than a sheet of three pages, each with one fault."""
    head, feed, row = HEADING + b'\n', b'\f', sheet.split(b'\n')[1]
    one, two, three = sheet.split(feed)
    rows = sheet.replace(feed + head, b'').split(b'\n')[1:-1]

    def paged(n=PAGE_ROWS, feed=feed, head=head, rows=rows):
        return feed.join(head + b''.join(row + b'\n' for row in rows[i:i + n]) for i in range(0, len(rows), n))

    assert paged() == sheet
    return {
        'pages of 51 rows': paged(51),
        'pages of 49 rows': paged(49),
        'one page': paged(len(rows)),
        'no form feed': paged(feed=b''),
        'a line feed for a form feed': paged(feed=b'\n'),
        'a form feed in a line of its own': paged(feed=b'\f\n'),
        'two form feeds': paged(feed=b'\f\f'),
        'a form feed at the end': sheet + feed,
        'a form feed at the begin': feed + sheet,
        'a form feed behind the heading': sheet.replace(feed + head, head + feed),
        'the heading once': sheet.replace(feed + head, feed),
        'no heading': paged(head=b''),
        'a heading without a row at the end': one + feed + two + feed + head,
        'no line feed at the end': sheet[:-1],
        'carriage returns': sheet.replace(b'\n', b'\r\n'),
        'an empty line': sheet.replace(row, b'\n' + row),
        'a key to the left': sheet.replace(row, row[:20].strip().ljust(20) + row[20:]),
        'a column less': paged(rows=[row[1:] for row in rows]),
        'a column more': paged(rows=[b' ' + row for row in rows]),
        'a blank at the end of a line': sheet.replace(row, row + b' '),
        'zeros before a number': sheet.replace(row, row[:21] + row[21:28].replace(b' ', b'0') + row[28:]),
        'a tab': sheet.replace(row, row[:20] + b'\t' + row[21:]),
        'a small letter': sheet.replace(b' L\n', b' l\n'),
        'keys that fall': paged(rows=rows[::-1]),
        'a row twice': paged(rows=rows[:1] + rows),
        'pages in another order': feed.join((two, one, three)),
        'nothing': b'',
        'a refusal': b'refused 1\n',
    }


def not_found():
    """The faults of a layout that the questions do not find."""
    words = register_of(KEPT)
    sheet = sheet_output(words, 8 * len(words)).encode()
    missed = [fault for fault, wrong in wrong_sheets(sheet).items() if wrong == sheet or pages_of(wrong) is not None]
    return missed + (['a right sheet is no sheet'] if pages_of(sheet) != [50, 50, 1] else [])


# ---- the programs list and sheet

def printed(program, data):
    done = subprocess.run([program], input=data, capture_output=True, timeout=60)
    return done.stdout if done.returncode == 0 and done.stderr == b'' else b'status %d: %s\n' % (done.returncode, done.stderr)


def finds(program, output):
    """Images that differ from a small one in one thing that the program prints are found to print something else, and
    so is one with a label more than another, at the end of a page and elsewhere."""
    f = first_word
    pairs = [(small(), changed(changes)) for changes in
             ({513: 8}, {512: f(1, 0, 2, 5)}, {512: f(1, 0, 1, 6)}, {519: f(2, 0, 1, 0)}, at(images.NEW, f(1, 0, 2, 256), 11))]
    pairs += [(many(n, lambda i: i), many(n + 1, lambda i: i)) for n in (0, 1, 49, 50, 99, 100)]
    for words, other in pairs:
        said = output(words, 8 * len(words)).encode()
        if printed(program, image(words)) != said or printed(program, image(other)) == said:
            return False
    return True


def at_most(nbytes):
    """A file takes no more bytes, as on a disk that is full then."""
    signal.signal(signal.SIGXFSZ, signal.SIG_IGN)
    resource.setrlimit(resource.RLIMIT_FSIZE, (nbytes, nbytes))


def says_what_is_lost(name, program):
    """Where standard output takes nothing, or a part, standard error says so, and the status is 1; where it takes all,
    nothing is said and it is 0."""
    data, said = image(many(100)), f'{name}: not all of it could be printed\n'.encode()
    with open('/dev/full', 'wb') as full, tempfile.TemporaryFile() as part, tempfile.TemporaryFile() as whole:
        nothing = subprocess.run([program], input=data, stdout=full, stderr=subprocess.PIPE, timeout=60)
        some = subprocess.run([program], input=data, stdout=part, stderr=subprocess.PIPE, preexec_fn=lambda: at_most(1000), timeout=60)
        all_ = subprocess.run([program], input=data, stdout=whole, stderr=subprocess.PIPE, timeout=60)
        lengths = part.seek(0, os.SEEK_END), whole.seek(0, os.SEEK_END)
    statuses = nothing.returncode, some.returncode, all_.returncode
    told = nothing.stderr == some.stderr == said and all_.stderr == b''
    return told and lengths[0] == 1000 < lengths[1] and statuses == (1, 1, 0)


# ---- zkv sheet

def laid_out(rows):
    """The sheet of these keys, versions, lengths and places."""
    text = [HEADING]
    for i, (key, version, length, place) in enumerate(rows):
        if i > 0 and i % PAGE_ROWS == 0:
            text.append(b'\f' + HEADING)
        text.append(f'{str(key).rjust(20)} {str(version).rjust(7)} {str(length).rjust(5)} {place}'.encode())
    return b''.join(line + b'\n' for line in text)


def of_model(data):
    """What zkv is to print of an image and 0, or nothing and the refusal's number."""
    try:
        v = View(words_of(data[:len(data) // 8 * 8]), len(data), ZKV_TABLE)
    except Refused as r:
        return b'', r.number
    tops = [v.chosen(key) for key in v.present_keys()]
    return laid_out([(e.key, e.version, len(v.value(e)), 'B' if e.block else 'L') for e in tops]), 0


def of_zkv(zkv, name, data):
    """What it prints of the image and 0, or the refusal's number; None where status and message are no reading
    command's."""
    with open(name, 'wb') as file:
        file.write(data)
    done = subprocess.run([zkv, 'sheet', name], stdin=subprocess.DEVNULL, capture_output=True, timeout=60)
    if done.returncode == 0 and done.stderr == b'':
        return done.stdout, 0
    said = re.fullmatch(rf'zkv: {re.escape(name)}: {len(data)} bytes: refused (\d+): [^\n]+\n', done.stderr.decode())
    return (done.stdout, int(said[1])) if done.returncode == 3 and said else None


def larger():
    """Images over the length that `sheet` takes, of as many labels as are said; of one key more than the table of zkv
    holds, and of one chunk more than a register has."""
    yield '5,000 labels', image(register_of(5_000)), 5_000
    yield '65,536 labels', image(many(65_536, chunks=300)), 65_536
    yield '65,537 labels', image(many(65_537, chunks=300)), None
    yield '505 chunks', bytes(505 * 4096), None


def run_zkv(zkv, sheet, cases, tell):
    seen = {'as sheet': 0, 'refused as sheet': 0, 'printed, not by sheet': 0, 'refused otherwise': 0}
    with tempfile.TemporaryDirectory(dir='/dev/shm' if os.access('/dev/shm', os.W_OK) else None) as folder:
        for title, data, labels in [(case.title, case.data, case.labels) for case in cases] + list(larger()):
            of_sheet, asked, got = printed(sheet, data), of_model(data), of_zkv(zkv, os.path.join(folder, 'l.img'), data)
            text, number = asked
            if got != asked:
                tell(f'{title}: zkv sheet: {str(got)[:200]}, expected {str(asked)[:200]}')
            if of_sheet == (b'refused %d\n' % number if number else text):
                seen['refused as sheet' if number else 'as sheet'] += 1
            elif of_sheet == b'refused 7\n' or (of_sheet == b'refused 1\n' and len(data) > IMAGE_MOST):
                seen['refused otherwise' if number else 'printed, not by sheet'] += 1
            else:
                tell(f'{title}: zkv is to print {text[:100]} or refuse with {number}, and sheet prints {of_sheet[:100]}')
            if got and labels is not None and sum(pages_of(got[0]) or [-1]) != labels:
                tell(f'{title}: zkv sheet: no sheet of so many labels')
    for kind, n in seen.items():
        if n == 0:
            tell(f'no case: zkv {kind}')
    return seen


# ---- all of it

def run(lister, sheet, zkv):
    wrong = []

    def tell(text):
        wrong.append(text)
        print(text)

    for fault in not_found():
        tell(f'a fault of the layout is not found: {fault}')
    for name, program, output in (('list', lister, list_output), ('sheet', sheet, sheet_output)):
        if not says_what_is_lost(name, program):
            tell(f'{name}: what could not be printed is not said to be lost')
        if not finds(program, output):
            tell(f'{name}: a difference is not found')
    cases = all_cases()
    seen = {}
    for case in cases:
        refused = case.list.startswith(b'refused')
        kind = case.list.decode().rstrip() if refused else ('listed with blocks' if b' B\n' in case.list else 'listed')
        seen[kind] = seen.get(kind, 0) + 1
        got = printed(lister, case.data)
        if got != case.list:
            tell(f'{case.title}: list printed {got[:200]}, expected {case.list[:200]}')
        got = printed(sheet, case.data)
        if got != case.sheet:
            tell(f'{case.title}: sheet printed {got[:200]}, expected {case.sheet[:200]}')
        if not refused and pages_of(got) is None:
            tell(f'{case.title}: sheet printed no sheet: {got[:200]}')
        if case.labels is not None and (got.count(b'\f') != PAGES[case.labels] - 1 or sum(pages_of(got) or [-1]) != case.labels):
            tell(f'{case.title}: sheet printed {got.count(12)} form feeds, and on pages {pages_of(got)} rows')
    for kind in ['listed', 'listed with blocks'] + [f'refused {n}' for n in range(1, 8)]:
        if not seen.get(kind):
            tell(f'no case: {kind}')
    by_zkv = run_zkv(zkv, sheet, cases, tell)
    print(f'lists: {len(cases)} images, {len(wrong)} wrong; ' + ', '.join(f'{k}: {n}' for k, n in sorted(seen.items()))
          + '; zkv ' + ', '.join(f'{k}: {n}' for k, n in by_zkv.items()))
    return 1 if wrong else 0


def keep(check):
    crates = os.path.join(os.path.dirname(os.path.dirname(os.path.abspath(__file__))), 'crates')
    status = 0
    for crate, words, output in (('list', four_chunks(), list_output), ('sheet', register_of(KEPT), sheet_output)):
        for name, content in (('stdin', image(words)), ('stdout', output(words, 8 * len(words)).encode())):
            path = os.path.join(crates, crate, name)
            if check:
                if not os.path.exists(path) or open(path, 'rb').read() != content:
                    print(f'{os.path.relpath(path)} is not what the model makes')
                    status = 1
            else:
                with open(path, 'wb') as f:
                    f.write(content)
    return status


if __name__ == '__main__':
    if '--run' in sys.argv:
        programs = sys.argv[sys.argv.index('--run') + 1:]
        if len(programs) != 3:
            sys.exit('usage: python3 tests/lists.py --run LIST SHEET ZKV')
        sys.exit(run(*map(os.path.abspath, programs)))
    sys.exit(keep('--check' in sys.argv))
