"""Images with keys to look up, as the first part of the script that the program `player` plays: tests/make_cases.py
writes it, with what the model of the rules says of them.

Nothing of the Rattle code is asked: images are made by hand or by the model's own calls, and each answer is the model's. Beside each
damaged image stands the number that the table of refusals gives for its clause, and the model must say the same.
"""
from landed import Station, View
from register_model import Refused, SIZES, UNITS, first_word, header_words, words_of

WORD = 1 << 64


def log(lines):
    return 1 | lines << 8


def blocks(size):
    return 2 | size << 8


def minus(n):
    return -n % WORD


def pattern(n, seed):
    """n bytes, the same eight over and over."""
    eight = bytes((seed * 31 + i * 37 + 11) % 256 for i in range(8))
    return (eight * (n // 8 + 1))[:n]


class Numbers:
    """Random numbers that are the same everywhere."""
    def __init__(self, seed):
        self.state = seed

    def below(self, n):
        self.state = (self.state * 6364136223846793005 + 1442695040888963407) % WORD
        return (self.state >> 33) % n

    def of(self, xs):
        return xs[self.below(len(xs))]


# ---- the script

class Script:
    def __init__(self):
        self.lines = []

    def image(self, title, words, keys, nbytes=None, table=64, number=None, places=False):
        """An image, its opening and look-ups; where a number is given the model must refuse with it, 0 being opened.

        With `places` the look-ups say too where the value's part starts, so that the chosen one of twins is seen."""
        nbytes = len(words) * 8 if nbytes is None else nbytes
        whole = nbytes // 8
        words = (words + [0] * whole)[:whole]
        if number is not None:
            assert refusal(words, nbytes, table) == number, (title, number, refusal(words, nbytes, table))
        self.lines += [f'# {title}', f'lend {nbytes} {table}']
        p = 0
        while p < whole:
            n = 1
            while p + n < whole and words[p + n] == words[p]:
                n += 1
            if words[p]:
                self.lines.append(f'fill {p} {n} {words[p]}')
            p += n
        self.lines.append('open')
        if refusal(words, nbytes, table) == 0:
            self.lines.append('keys')
        for k in keys:
            self.lines += [f'look {k}'] * places + [f'show {k}']


def refusal(words, nbytes, table):
    try:
        View(words, nbytes, table)
    except Refused as r:
        return r.number
    return 0


# ---- whole images, made by the model's calls

class Made:
    def __init__(self, count, station=None, centre=None, table=8192):
        self.words, self.st, self.table = [0] * (512 * count), Station(), table
        self.st.format(self.words, station, centre)
        self.run()
        self.st.open(self.words, table)

    def run(self):
        while self.st.step(self.words) != ('end',):
            pass

    def put(self, key, value):
        self.st.stage(self.words, key, value)
        self.run()
        return self

    def delete(self, key):
        return self.put(key, None)

    def commit(self):
        self.st.commit(self.words)
        self.run()
        return self


def whole_images(s):
    s.image('empty, four chunks', Made(4).words, [0, 7])
    s.image('empty, station and centre number, table of no word', Made(5, 3, 4).words, [7], table=0)
    s.image('empty, centre number alone, sixteen chunks', Made(16, None, WORD - 1).words, [7])
    m = Made(4).put(7, b'abcde').put(9, b'').commit()
    s.image('five bytes and an empty value', m.words, [7, 9, 8])
    s.image('the same, table of eight words', m.words, [7, 9, 8], table=8)
    m.delete(9).commit()
    s.image('the empty value deleted', m.words, [7, 9])
    m.put(9, b'^caret \x1b escape').put(7, b'').put(7, b'again').commit()
    s.image('put again, and twice in one commit', m.words, [7, 9])
    m.delete(7).put(7, b'back').delete(7).commit()
    s.image('deleted, put and deleted in one commit', m.words, [7, 9])
    m = Made(4)
    for k in (0, 1, WORD - 1, 1 << 63, 2 ** 32, 17):
        m.put(k, pattern(k % 13, 5))
    s.image('keys at the ends of the numbers', m.commit().words, [0, 1, WORD - 1, 1 << 63, 2 ** 32, 17, 2])
    m = Made(16)
    for n in range(1, 257):
        m.put(n, pattern(n, n))
        if n % 15 == 0:
            m.commit()
    m.commit()
    s.image('values of 1 to 256 bytes, several log chunks', m.words, range(0, 258), table=8192)
    s.image('the same, table of 1,024 words', m.words, [1, 256, 257], table=1024)
    s.image('the same, table of 1,023 words', m.words, [1], table=1023, number=7)
    m = Made(4)
    n = 0
    try:
        while True:
            m.put(n % 3, pattern(248, n)).commit()
            n += 1
    except Refused as r:
        assert r.number == 13
    s.image('log full', m.words, [0, 1, 2, 3])
    m = Made(16)
    for i, size in enumerate(SIZES):
        for j, n in enumerate((257 if size == 2 else SIZES[i - 1] * 256 - 7, size * 256 - 8)):
            m.put(10 * size + j, pattern(n, size + j))
    m.commit()
    s.image('a block of each size, the least and the most that it holds', m.words, [10 * x + j for x in SIZES for j in range(2)] + [5], table=8192)
    m.put(20, b'small').delete(21).put(30, pattern(700, 1)).commit()
    s.image('blocks superseded by a small value, a delete and another block', m.words, [20, 21, 30, 31], table=8192)


# ---- the small image of which the damaged ones are made

def small():
    """Chunk 1 log with six lines, chunk 2 data with blocks of three units, chunk 3 free; words that mean nothing are 3.

    512 put 7 of five bytes; 515 put 9 in the block at unit 32 (word 1024); 517 delete 5, version 2; 519 put 11 in the block at unit 35
    (word 1120), the same 257 bytes; 521 to 559 padding.
    """
    block = [257] + [1] * 33 + [3] * 62
    entries = [first_word(1, 0, 1, 5), 7, 478560413032, first_word(1, 1, 1, 32), 9, first_word(2, 0, 2, 0), 5, first_word(1, 1, 1, 35), 11]
    return (header_words(4) + [0, log(6), blocks(3), 0] + [0] * 500 + entries + [0] * 39 + [3] * 464 + block + block + [3] * 320 + [0] * 512)


def changed(changes, words=None):
    words = small() if words is None else list(words)
    for w, v in changes.items():
        words[w] = v
    return words


def at(word, *values):
    return {word + i: v for i, v in enumerate(values)}


NEW = 521                       # where one more entry goes
F = first_word

# number, clause, what makes the image wrong, what makes its neighbour right
DAMAGED = [
    (2, 'word 0 is 0', {0: 0}, {}),
    (2, 'map without bit 0, station', {0: 2, 7: minus(6)}, {0: 3, 7: minus(7)}),
    (2, 'map without bit 0, centre', {0: 4, 7: minus(8)}, {0: 5, 7: minus(9)}),
    (2, 'map without bit 0, both', {0: 6, 7: minus(10)}, {0: 7, 7: minus(11)}),
    (2, 'map bit 3', {0: 9, 7: minus(13)}, {}),
    (2, 'map bit 63', {0: 1 | 1 << 63, 7: minus(5 + (1 << 63))}, {}),
    (2, 'word 2 unused', {2: 6, 7: minus(11)}, {0: 3, 2: 6, 7: minus(13)}),
    (2, 'word 3 unused', {3: 6, 7: minus(11)}, {0: 7, 3: 6, 7: minus(17)}),
    (2, 'word 3 unused, station', {0: 3, 3: 6, 7: minus(13)}, {0: 7, 3: 6, 7: minus(17)}),
    (2, 'word 3 unused, centre', {0: 5, 3: 6, 7: minus(15)}, {0: 5, 2: 6, 7: minus(15)}),
    (2, 'word 4', {0: 7, 4: 6, 7: minus(17)}, {0: 7, 7: minus(11)}),
    (2, 'word 5', {5: 6, 7: minus(11)}, {}),
    (2, 'word 6', {6: 6, 7: minus(11)}, {}),
    (2, 'sum one too much', {7: minus(4)}, {7: minus(5)}),
    (2, 'sum one too little', {7: minus(6)}, {7: minus(5)}),
    (2, 'sum that wraps', {0: 3, 2: minus(1), 7: minus(7)}, {0: 3, 2: minus(1), 7: minus(6)}),
    (2, 'word 7 is to be 0', {0: 3, 2: minus(7), 7: 1}, {0: 3, 2: minus(7), 7: 0}),
    (2, 'count 5', {1: 5, 7: minus(6)}, {}),
    (2, 'count 3', {1: 3, 7: minus(4)}, {}),
    (3, 'role 3', {11: 3}, {11: 0}),
    (3, 'role 3 with a size', {11: blocks(2) + 1}, {11: blocks(2)}),
    (3, 'bit 2', {11: blocks(2) + 4}, {11: blocks(2)}),
    (3, 'bit 5', {11: blocks(2) + 32}, {11: blocks(2)}),
    (3, 'bit 7', {11: log(1) + 128}, {11: log(1)}),
    (3, 'free with bit 2', {11: 4}, {11: 0}),
    (3, 'free with bit 8', {11: 256}, {11: 0}),
    (3, 'free with bit 63', {11: 1 << 63}, {11: 0}),
    (3, 'no line', {11: log(0)}, {11: log(1)}),
    (3, '65 lines', {11: log(65)}, {11: log(64)}),
    (3, 'lines and bit 63', {11: log(1) | 1 << 63}, {11: log(1)}),
    (3, 'size 0', {11: blocks(0)}, {11: blocks(2)}),
    (3, 'size 1', {11: blocks(1)}, {11: blocks(2)}),
    (3, 'size 6', {11: blocks(6)}, {11: blocks(5)}),
    (3, 'size 7', {11: blocks(7)}, {11: blocks(8)}),
    (3, 'size 9', {11: blocks(9)}, {11: blocks(8)}),
    (3, 'size 15', {11: blocks(15)}, {11: blocks(16)}),
    (3, 'size 17', {11: blocks(17)}, {11: blocks(4)}),
    (3, 'size and bit 63', {11: blocks(3) | 1 << 63}, {11: blocks(3)}),
    (3, 'word of chunk 0', {8: log(1)}, {8: 0}),
    (3, 'first word past the count', {12: blocks(2)}, {12: 0}),
    (3, 'last word past the count', {511: blocks(2)}, {511: 0}),
    (4, 'operation 0', at(NEW, F(0, 0, 1, 0), 13), at(NEW, F(1, 0, 1, 0), 13)),
    (4, 'operation 3', at(NEW, F(3, 0, 1, 0), 13), at(NEW, F(2, 0, 1, 0), 13)),
    (4, 'first word 3', {NEW: 3}, {NEW: 0}),
    (4, 'placement 2', at(NEW, F(1, 2, 1, 0), 13), at(NEW, F(1, 0, 1, 0), 13)),
    (4, 'placement 3', at(NEW, F(1, 3, 1, 0), 13), at(NEW, F(1, 0, 1, 0), 13)),
    (4, 'delete with placement 1', at(NEW, F(2, 1, 1, 0), 13), at(NEW, F(2, 0, 1, 0), 13)),
    (4, 'delete with placement 3', at(NEW, F(2, 3, 1, 0), 13), at(NEW, F(2, 0, 1, 0), 13)),
    (4, 'version 0 of a put', at(NEW, F(1, 0, 0, 1), 13), at(NEW, F(1, 0, 1_048_575, 1), 13)),
    (4, 'version 0 of a block', {515: F(1, 1, 0, 32)}, {515: F(1, 1, 1, 32)}),
    (4, 'version 0 of a delete', at(NEW, F(2, 0, 0, 0), 13), at(NEW, F(2, 0, 1, 0), 13)),
    (4, '257 bytes in the log', at(NEW, F(1, 0, 1, 257), 13), at(NEW, F(1, 0, 1, 256), 13)),
    (4, 'the longest length', at(NEW, F(1, 0, 1, (1 << 40) - 1), 13), at(NEW, F(1, 0, 1, 256), 13)),
    (4, 'delete with bit 24', at(NEW, F(2, 0, 1, 1), 13), at(NEW, F(2, 0, 1, 0), 13)),
    (4, 'delete with bit 63', at(NEW, F(2, 0, 1, 1 << 39), 13), at(NEW, F(2, 0, 1, 0), 13)),
    (4, 'key past the lines, put', {559: F(1, 0, 1, 0)}, at(558, F(1, 0, 1, 0), 13)),
    (4, 'key past the lines, delete', {559: F(2, 0, 1, 0)}, at(558, F(2, 0, 1, 0), 13)),
    (4, 'value past the lines', at(558, F(1, 0, 1, 5), 13), at(557, F(1, 0, 1, 5), 13)),
    (4, 'second word past the lines', at(557, F(1, 0, 1, 9), 13), at(556, F(1, 0, 1, 9), 13)),
    (4, '256 bytes past five lines', {9: log(5), **at(NEW, F(1, 0, 1, 256), 13)}, at(NEW, F(1, 0, 1, 256), 13)),
    (4, 'fill after five bytes', {514: 1 << 40}, {514: (1 << 40) - 1}),
    (4, 'fill after one byte', at(NEW, F(1, 0, 1, 1), 13, 256), at(NEW, F(1, 0, 1, 1), 13, 255)),
    (4, 'fill after seven bytes', at(NEW, F(1, 0, 1, 7), 13, 1 << 56), at(NEW, F(1, 0, 1, 8), 13, minus(1))),
    (5, 'pointer 0', {515: F(1, 1, 1, 0)}, {}),
    (5, 'pointer into chunk 0', {515: F(1, 1, 1, 2)}, {}),
    (5, 'pointer into a log chunk', {515: F(1, 1, 1, 16)}, {}),
    (5, 'pointer into a free chunk', {515: F(1, 1, 1, 48), 1536: 257}, {11: blocks(3), 515: F(1, 1, 1, 48), 1536: 257}),
    (5, 'pointer past the image', {515: F(1, 1, 1, 64)}, {}),
    (5, 'the largest pointer', {515: F(1, 1, 1, (1 << 40) - 1)}, {}),
    (5, 'pointer inside a block', {515: F(1, 1, 1, 37), 1184: 257}, {515: F(1, 1, 1, 38), 1216: 257}),
    (5, 'behind the last block of three units', {515: F(1, 1, 1, 47), 1504: 257}, {515: F(1, 1, 1, 44), 1408: 257}),
    (5, 'behind the last block of five units', {11: blocks(5), 515: F(1, 1, 1, 63), 2016: 257}, {11: blocks(5), 515: F(1, 1, 1, 58), 1856: 257}),
    (5, 'block of 256 bytes', {1024: 256}, {1024: 257}),
    (5, 'block of no bytes', {1024: 0}, {}),
    (5, 'block of 761 bytes', {1024: 761}, {1024: 760}),
    (5, 'block of 4,089 bytes', {11: blocks(16), 515: F(1, 1, 1, 48), 1536: 4089}, {11: blocks(16), 515: F(1, 1, 1, 48), 1536: 4088}),
    (5, 'the longest block', {1024: minus(1)}, {}),
    (5, 'fill after 257 bytes', {1057: 256}, {1057: 255}),
    (5, 'fill after 263 bytes', {1024: 263, 1057: minus(1)}, {1024: 264, 1057: minus(1)}),
    (5, 'wrong block, and a later put of another key', {515: F(1, 1, 1, 0), **at(NEW, F(1, 0, 2, 0), 13)}, {515: F(1, 1, 1, 0), **at(NEW, F(1, 0, 2, 0), 9)}),
    (5, 'wrong block, and a later delete of another key', {515: F(1, 1, 1, 0), **at(NEW, F(2, 0, 2, 0), 13)}, {515: F(1, 1, 1, 0), **at(NEW, F(2, 0, 2, 0), 9)}),
    (5, 'wrong block of a second top put', at(NEW, F(1, 1, 1, 0), 9), at(NEW, F(1, 1, 1, 32), 9)),
    (6, 'put and delete of 7, version 2', at(NEW, F(1, 0, 2, 0), 7, F(2, 0, 2, 0), 7), at(NEW, F(1, 0, 2, 0), 7, F(2, 0, 3, 0), 7)),
    (6, 'delete and put of 7, version 2', at(NEW, F(2, 0, 2, 0), 7, F(1, 0, 2, 0), 7), at(NEW, F(2, 0, 2, 0), 7, F(2, 0, 2, 0), 7)),
    (6, 'puts of unequal bytes', at(NEW, F(1, 0, 1, 5), 7, 478560413033), at(NEW, F(1, 0, 1, 5), 7, 478560413032)),
    (6, 'puts of unequal lengths', at(NEW, F(1, 0, 1, 6), 7, 478560413032), at(NEW, F(1, 0, 1, 5), 7, 478560413032)),
    (6, 'the third of three', at(NEW, F(1, 0, 1, 5), 7, 478560413032, F(1, 0, 1, 0), 7), at(NEW, F(1, 0, 1, 5), 7, 478560413032, F(1, 0, 1, 0), 13)),
    (6, 'disagreement at the highest version', at(NEW, F(1, 0, 1, 0), 7), at(NEW, F(1, 0, 1, 0), 7, F(2, 0, 2, 0), 7)),
    (6, 'a block and the log', at(NEW, F(1, 0, 1, 256), 9), at(NEW, F(1, 1, 1, 32), 9)),
    (6, 'two blocks of equal values', {520: 9}, {519: F(1, 1, 1, 32), 520: 9}),
    (6, 'two blocks of unequal values', {520: 9, 1121: 2}, {519: F(1, 1, 1, 32), 520: 9, 1121: 2}),
    (6, 'two blocks at the highest version', {520: 9}, {520: 9, **at(NEW, F(1, 0, 2, 0), 9)}),
    (6, 'the second of two in another block', {519: F(1, 1, 1, 32), 520: 9, **at(NEW, F(1, 1, 1, 35), 9)}, {519: F(1, 1, 1, 32), 520: 9, **at(NEW, F(1, 1, 1, 32), 9)}),
    (6, 'one block of two keys', {519: F(1, 1, 1, 32)}, {519: F(1, 1, 1, 32), 520: 9}),
    (6, 'one block of two keys, and a later put', {519: F(1, 1, 1, 32), **at(NEW, F(1, 0, 2, 0), 13)}, {519: F(1, 1, 1, 32), **at(NEW, F(1, 0, 2, 0), 11)}),
    (6, 'the block of two twins, and another key', {519: F(1, 1, 1, 32), 520: 9, **at(NEW, F(1, 1, 1, 32), 13)}, {519: F(1, 1, 1, 32), 520: 9, **at(NEW, F(1, 1, 1, 35), 13)}),
]

# two faults in one image: the lower number is answered
PAIRS = [
    (1, 'length and header', {0: 0}, 16385, 64),
    (2, 'header and directory', {7: 0, 8: 1}, 16384, 64),
    (3, 'last directory word and first entry', {511: 1, 512: 3}, 16384, 64),
    (4, 'last committed word and a pointer', {559: 3, 515: F(1, 1, 1, 0)}, 16384, 64),
    (5, 'a pointer and a disagreement', {519: F(1, 1, 1, 0), **at(NEW, F(1, 0, 1, 0), 7)}, 16384, 64),
    (5, 'a block and one block of two keys', {1024: 256, **at(NEW, F(1, 1, 1, 35), 13)}, 16384, 64),
    (4, 'an entry and the table', {559: 3}, 16384, 15),
    (5, 'a pointer and the table', {519: F(1, 1, 1, 0)}, 16384, 15),
    (5, 'a pointer of the last key and a table for one key', {519: F(1, 1, 1, 0)}, 16384, 4),
    (5, 'a pointer of a second top put and a table for one key', at(NEW, F(1, 1, 1, 0), 11), 16384, 4),
    (6, 'a disagreement and the table', at(NEW, F(1, 0, 1, 0), 7), 16384, 15),
    (6, 'a disagreement of the last key and a table for one key', at(NEW, F(2, 0, 1, 0), 11), 16384, 7),
    (6, 'one block of two keys and a table of no word', {519: F(1, 1, 1, 32)}, 16384, 0),
    (7, 'blocks superseded that are wrong, and the table', {515: F(1, 1, 1, 0), **at(NEW, F(1, 0, 2, 0), 9)}, 16384, 15),
]

KEYS = [7, 9, 5, 11, 13]


def damaged_images(s):
    s.image('the small image', small(), KEYS, number=0)
    for n in (0, 1, 7, 8, 4095, 4096, 12288, 16383, 16385, 16392, 20479, 65535):
        s.image(f'1: {n} bytes', small(), [7], nbytes=n, number=1)
    s.image('1: the neighbour, 20,480 bytes', changed({1: 5, 7: minus(6)}), KEYS, nbytes=20480, number=0)
    s.image('2: count unlike the length', small(), [7], nbytes=20480, number=2)
    s.image('3: the neighbour, a fifth chunk', changed({1: 5, 7: minus(6), 12: blocks(2)}), KEYS, nbytes=20480, number=0)
    for number, clause, wrong, right in DAMAGED:
        s.image(f'{number}: {clause}', changed(wrong), [7], number=number)
        s.image(f'{number}: neighbour of: {clause}', changed(right), KEYS, number=0)
    one = {w: 0 for w in range(515, 521)}
    s.image('7: one key, table of three words', changed(one), [7], table=3, number=7)
    s.image('7: neighbour: one key, table of four words', changed(one), KEYS, table=4, number=0)
    s.image('7: four keys, one deleted, table of fifteen words', small(), [7], table=15, number=7)
    s.image('7: neighbour: four keys, table of sixteen words', small(), KEYS, table=16, number=0)
    s.image('7: one key, table of no word', changed(one), [7], table=0, number=7)
    s.image('7: neighbour: no key, table of no word', changed({9: 0}), KEYS, table=0, number=0)
    for number, faults, changes, nbytes, table in PAIRS:
        s.image(f'{number}: {faults}', changed(changes), [7], nbytes=nbytes, table=table, number=number)


# ---- foreign images

def twins(s):
    """Twins that agree, in one chunk and in two, in the log and in blocks."""
    value = words_of(pattern(30, 1))
    put = [F(1, 0, 2, 30), 7] + value
    w = header_words(6) + [0, log(2), log(1), 0, log(1), 0] + [0] * (6 * 512 - 14)
    w[512:512 + 14] = put + [F(1, 0, 1, 0), 9] + [F(1, 0, 1, 3), 7, 5] + [0, F(2, 0, 4, 0), 8]
    w[1024:1024 + 8] = put + [F(2, 0, 4, 0), 8]
    w[2048:2048 + 8] = put + [F(1, 0, 3, 0), 8]
    s.image('twins in the log, in three chunks; a put of 8 below two deletes', w, [7, 8, 9, 10], number=0, places=True)
    s.image('the same, and a fourth that disagrees', changed({2049: 9, 2048: F(1, 0, 1, 30)}, w), [7], number=6)
    s.image('the same, table of eleven words', w, [7], table=11, number=7)
    one = {519: F(1, 1, 1, 32), 520: 9}
    s.image('twins in one block', changed(one), KEYS, number=0, places=True)
    s.image('twins in one block, table of eleven words', changed(one), KEYS, table=11, number=7)
    s.image('twins in one block, in two chunks', changed({11: log(1), 519: 0, 520: 0, **at(1536, F(1, 1, 1, 32), 9)}), KEYS, number=0, places=True)
    s.image('twins in two blocks of one key', changed({520: 9}), KEYS, number=6)
    s.image('twins in two blocks, of sizes three and five', changed({11: blocks(5), 519: F(1, 1, 1, 53), 520: 9, **at(1696, 257, *[1] * 33)}), KEYS, number=6)
    s.image('twins in one block, and a third in another', changed({520: 9, **at(NEW, F(1, 1, 1, 32), 9)}), KEYS, number=6)
    s.image('twins in one block, which is wrong', changed({**one, 1024: 256}), KEYS, number=5)
    s.image('a twin in a block of a key that a later delete hides', changed({520: 9, **at(NEW, F(2, 0, 2, 0), 9)}), KEYS, number=0, places=True)
    s.image('twins have the block of another key', changed({**one, **at(NEW, F(1, 1, 1, 32), 13)}), [7], number=6)
    s.image('a superseded twin has the block of another key', changed({520: 9, **at(NEW, F(1, 1, 1, 35), 13, F(1, 0, 2, 1), 9, 65)}), KEYS, number=0, places=True)


def foreign(s, seed):
    """Log and data chunks in any order, twins and wrong blocks by chance."""
    r = Numbers(seed)
    count = r.of([4, 5, 6, 8])
    keys = [r.below(6), 6 + r.below(6), 12 + r.below(6), 18]
    w = header_words(count, r.of([None, 9]), r.of([None, 9])) + [0] * (count * 512 - 8)
    data = []
    for c in range(1, count):
        if r.below(3) == 0:
            size = r.of(SIZES)
            w[8 + c] = blocks(size)
            for j in range(UNITS // size):
                n = r.of([257, 258, 264, size * 256 - 8, 257 + r.below(size * 256 - 264)])
                b = (c * UNITS + j * size) * 32
                block = [n] + words_of(pattern(n, r.of([1, 2])))
                w[b:b + len(block)] = block
                data.append(c * UNITS + j * size)
    for c in range(1, count):
        if w[8 + c] or r.below(4) == 0:
            continue
        ws = []
        for _ in range(r.of([1, 3, 6, 10])):
            k, v = r.of(keys), r.of([1, 2, 2, 3])
            if r.below(5) == 0:
                ws += [F(2, 0, v, 0), k]
            elif data and r.below(5) < 2:
                ws += [F(1, 1, v, r.of(data) if r.below(12) else r.of([0, 1, 16, 47, 1000, 2 ** 40 - 1])), k]
            else:
                n = (7 * k + v) % 30
                ws += [F(1, 0, v, n), k] + words_of(pattern(n, k))
            ws += [0] * r.of([0, 0, 1, 6])
        lines = min(64, (len(ws) + 7) // 8 + (r.below(12) == 0))
        w[8 + c] = log(max(1, lines - (r.below(15) == 0)))
        w[c * 512:c * 512 + len(ws)] = ws
    table = r.of([4, 8, 12, 16, 64, 64, 64])
    s.image(f'foreign {seed}', w, keys + [19] if refusal(w, len(w) * 8, table) == 0 else [7], table=table, places=True)
    return refusal(w, len(w) * 8, table)


def foreign_images(s):
    twins(s)
    left = {0: 12, 4: 3, 5: 3, 6: 3, 7: 3}     # so many of each answer
    seed = 0
    while any(left.values()):
        seed += 1
        trial = Script()
        n = foreign(trial, seed)
        if left[n]:
            left[n] -= 1
            s.lines += trial.lines


def script():
    s = Script()
    s.lines.append('record')
    whole_images(s)
    damaged_images(s)
    foreign_images(s)
    return s.lines
