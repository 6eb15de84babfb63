"""Makes crates/player/stdin, images that are opened, with keys to look up (tests/make_images.py), and worked cases of
the rules (those that are one proved table are in crate `examples`), and crates/player/stdout, what the model says of
them; and crates/sizes/stdout, the table of block sizes.

python3 tests/make_cases.py            writes the files
python3 tests/make_cases.py --check    compares them with the files kept; exit status 1 on a difference

The calls stand below as the rules tell the cases, those of the counter level first, choosing and cleaning behind them in a part of
their own. Every line of the expected output comes from the model (tests/model), the step counts and the sums over the reports included;
the numbers that come with the rules stand beside the calls as `is_`, and the model must say the same. Nothing of the Rattle code is
asked.
"""
import sys

import make_images
from scripts import Model, keep, keep_texts
from register_model import first_word


class Script:
    """The lines so far, and the model that has played them."""
    def __init__(self):
        self.lines, self.model = [], Model()

    def say(self, line, is_=None):
        answer = self.model.line(line)
        assert is_ is None or answer == is_, (line, answer, is_)
        self.lines.append(line)
        return answer

    def note(self, text):
        self.say(f'# {text}')

    # ---- calls with what the rules say of them
    def lend(self, nbytes=16384, table=64):
        self.say(f'image {nbytes}')
        self.say(f'table {table}')
        self.say('record')

    def run(self, steps):
        ran, last = self.say('run').split('\n')
        assert ran.split(' ')[:2] == ['ran', str(steps)] and last == 'end', (ran, last, steps)

    def format(self, station='-', centre='-', power=None):
        """582 actions, a + 1 steps."""
        self.say(f'format {station} {centre}' + ('' if power is None else f' {power}'), 'begun 582')
        self.run(583)

    def open(self):
        self.say('open', 'opened')

    def stage(self, line):
        """A staging with no action takes one step."""
        self.say(line, 'begun 0')
        self.run(1)

    def block(self, line, nbytes, taken):
        """A staging in a block: length and value, a flush for each line; a free chunk's directory word and its line before."""
        words = 1 + (nbytes + 7) // 8
        actions = words + (words + 7) // 8 + (2 if taken else 0)
        self.say(line, f'begun {actions}')
        self.run(actions + 1)

    def commit(self, b):
        """9b + 4 actions, one step more."""
        self.say('commit', f'begun {9 * b + 4}')
        self.run(9 * b + 5)

    def fresh(self, nbytes=16384, table=64):
        self.lend(nbytes, table)
        self.format()
        self.open()

    def clean(self, chunk, b, copied):
        """As a commit of b lines, where something is copied; then three actions more."""
        actions = (9 * b + 4 if b else 0) + 3
        self.say(f'clean {chunk}', f'begun {actions}')
        ran, last = self.say('run').split('\n')
        assert ran.split(' ')[:2] == ['ran', str(actions + 1)] and last == f'end {copied}', (ran, last, chunk)

    def pokes(self, words):
        for w, v in words.items():
            self.say(f'poke {w} {v}')

    def refused(self, line, number):
        self.say(line, f'refused {number}')
        self.say('kept', 'kept')

    def looks(self, register, calls=('lookv',)):
        """Look-ups of each key: where its value starts, its bytes counted up from the first, its version; or it is
        absent."""
        for k, held in register.items():
            for call in calls:
                answer = 'refused 11'
                if held is not None:
                    start, nbytes, first, version = held
                    answer = f'value {start} {nbytes} {sum((i + 1) * ((first + i) % 256) for i in range(nbytes))}'
                    answer += f' {version}' if call == 'lookv' else ''
                self.say(f'{call} {k}', answer)
        self.say('kept', 'kept')

    def reprints(self, line, actions, before, after, end='end', inside=()):
        """A call with look-ups between its steps (of a large value, the first and the last ones): they answer from the
        register before it, and behind its last action from the one that it makes. Other calls in it get 8."""
        self.say(line, f'begun {actions}')
        for i in range(actions):
            if i in (0, 11, actions - 1):
                self.looks(before, ('look', 'lookv'))
                for other in inside:
                    self.refused(other, 8)
            elif actions < 25 or i < 4:
                self.looks(before)
            self.say('step')
        self.looks(after, ('look', 'lookv'))
        for other in inside:
            self.refused(other, 8)
        self.say('step', end)
        self.looks(after)

    def directory(self, *words):
        for c, word in enumerate(words, 1):
            self.say(f'word {8 + c}', f'word {8 + c} {word}')


def four_chunks(s):
    s.note('Four chunks. Commit put 7 of 5 bytes and put 9 empty: word of chunk 1 is 257. Commit delete 9: 513.')
    s.lend()
    s.say('step', 'idle')
    s.format()
    for w, v in enumerate((1, 4, 0, 0, 0, 0, 0, 2 ** 64 - 5)):
        s.say(f'word {w}', f'word {w} {v}')
    s.open()
    s.say('keys', 'keys 0')
    s.stage('put 7 5 97')
    s.stage('put 9 0 0')
    s.say('look 7', 'refused 11')                   # staged items are unseen
    s.say('look 9', 'refused 11')
    s.commit(1)
    s.directory(257, 0, 0)
    s.say('word 512', 'word 512 83886097')          # put, version 1, 5 bytes
    s.say('word 515', 'word 515 17')                # empty put, version 1
    s.say('look 7', 'value 4112 5 1495')
    s.say('show 7', 'value 7 5 1495 6162636465')
    s.say('look 9', 'value 4136 0 0')
    s.say('keys', 'keys 2')
    s.stage('delete 9')
    s.commit(1)
    s.directory(513, 0, 0)
    s.say('word 520', 'word 520 34')                # delete, version 2
    s.say('look 7', 'value 4112 5 1495')
    s.say('look 9', 'refused 11')
    s.say('keys', 'keys 2')                         # a deleted key is known
    s.say('sum')
    s.note('opened anew, with another record: the same')
    s.say('record')
    s.say('look 7', 'refused 2')
    s.open()
    s.say('look 7', 'value 4112 5 1495')
    s.say('look 9', 'refused 11')
    s.say('keys', 'keys 2')
    s.say('step', 'idle')
    s.say('kept', 'kept')
    s.say('run')
    s.note('put again: version 2 of 7, version 3 of 9')
    s.stage('put 9 3 40')
    s.stage('put 7 256 1')
    s.commit(5)
    s.directory(513 + 5 * 256, 0, 0)
    s.say('show 7')
    s.say('show 9')
    s.say('word 528', f'word 528 {first_word(1, 0, 3, 3)}')
    s.say('word 531', f'word 531 {first_word(1, 0, 2, 256)}')
    s.say('sum')


def steps(s):
    s.note('A commit step by step: stores, flushes, fence, directory word, flush, fence; then the end, then idle.')
    s.fresh()
    s.stage('put 7 5 97')
    s.say('commit', 'begun 13')
    for i in range(8):
        s.say('step')
    for answer in ('flush 64', 'fence', 'store 9 257', 'flush 1', 'fence', 'end', 'idle'):
        s.say('step', answer)


def numbered_header(s):
    s.note('A formatting with station and centre number: the header line. Sixteen chunks.')
    for station, centre, fields in ((5, 6, 7), (5, '-', 3), ('-', 6, 5), ('-', '-', 1)):
        s.lend(65536)
        s.format(station, centre)
        given = [x for x in (station, centre) if x != '-']
        words = [fields, 16] + given + [0] * (5 - len(given))
        for w, v in enumerate(words + [-sum(words) % 2 ** 64]):
            s.say(f'word {w}', f'word {w} {v}')
        s.open()
        s.say('sum')
    s.note('The begin of a formatting leaves the image; its end leaves nothing open, nothing staged')
    s.stage('put 7 3 1')
    s.say('format - -', 'begun 582')
    s.say('look 7', 'refused 8')
    s.run(583)
    s.say('look 7', 'refused 2')
    s.say('commit', 'refused 2')
    s.open()
    s.say('commit', 'refused 14')


def abandoned(s):
    s.note('An abandoned batch: nothing of it is seen, versions count on from what is committed.')
    s.fresh()
    s.stage('put 7 5 97')
    s.stage('put 8 1 1')
    s.say('abandon', 'abandoned')
    s.refused('abandon', 14)
    s.refused('commit', 14)
    s.say('look 7', 'refused 11')
    s.stage('put 7 1 50')
    s.commit(1)
    s.say('word 512', f'word 512 {first_word(1, 0, 1, 1)}')
    s.say('look 7')
    s.say('look 8', 'refused 11')
    s.stage('delete 7')
    s.say('abandon', 'abandoned')
    s.say('look 7')
    s.note('An opening forgets what is staged.')
    s.stage('put 9 1 1')
    s.open()
    s.refused('commit', 14)
    s.refused('look 9', 11)


def full_batch(s):
    s.note('Fifteen 256-byte puts make 4,080 bytes: a delete still fits, another such put gets 10.')
    s.fresh(65536, 8192)
    for k in range(15):
        s.stage(f'put {k} 256 {k}')
    s.refused('put 15 256 15', 10)
    s.refused('put 15 1 15', 10)
    s.stage('delete 3')
    s.refused('put 16 0 0', 10)
    s.refused('delete 4', 10)
    s.commit(64)
    s.directory(1 | 64 << 8)
    for k in range(16):
        s.say(f'look {k}')
    s.say('sum')


def blocks(s):
    s.note('Values in blocks. Into a free chunk and into its next block; 504 bytes take two units, 505 three, 4,088 a whole chunk.')
    s.fresh(65536)
    s.block('put 7 257 1', 257, True)
    s.block('put 8 504 2', 504, False)
    s.block('put 9 505 3', 505, True)
    s.block('put 10 4088 4', 4088, True)
    s.refused('look 7', 11)
    s.commit(1)
    for k in (7, 8, 9, 10):
        s.say(f'look {k}')
    s.say('sum')

    s.note('superseded and deleted: their blocks are used again behind the last fence, the lowest first')
    s.block('put 7 300 5', 300, False)
    s.stage('delete 8')
    s.commit(1)
    s.say('look 7')
    s.refused('look 8', 11)
    s.block('put 8 257 6', 257, False)
    s.say('sum')
    s.say('abandon', 'abandoned')
    s.block('put 8 258 7', 258, False)
    s.commit(1)
    s.say('look 8')
    s.say('sum')

    s.note('one key in one batch: large, small, deleted, large again, small')
    s.block('put 11 1000 1', 1000, True)
    s.stage('put 11 3 1')
    s.stage('delete 11')
    s.block('put 11 1000 2', 1000, False)
    s.commit(2)
    s.say('look 11')
    s.block('put 11 1016 3', 1016, False)
    s.stage('put 11 3 9')
    s.commit(1)
    s.say('look 11')

    s.note('opened anew, with another record: the same')
    s.say('record')
    s.open()
    for k in range(7, 12):
        s.say(f'look {k}')
    s.block('put 12 1000 1', 1000, False)
    s.say('sum')

    s.note('a staging in a block step by step: directory word, its line, length, value, lines, end; but for look-up calls get 8')
    s.fresh(65536)
    s.say('put 7 257 0', 'begun 41')
    for answer in ('store 9 514', 'flush 1', 'store 512 257', 'store 513 506097522914230528'):
        s.say('step', answer)
        s.refused('look 7', 11)
    for line in ('commit', 'abandon', 'put 8 0 0', 'delete 7', 'format - -'):
        s.refused(line, 8)
    s.run(38)
    s.commit(1)
    s.say('look 7')


def refusals(s):
    s.note('1: 4,095 bytes; a lent length unlike that at opening')
    s.lend(4095)
    s.refused('open', 1)
    s.refused('format - -', 1)
    s.fresh()
    s.say('image 20480')
    for line in ('look 7', 'put 7 0 0', 'delete 7', 'commit', 'abandon'):
        s.refused(line, 1)
    s.fresh()
    s.stage('put 7 0 0')
    s.say('commit', 'begun 13')
    s.say('table 65')
    s.refused('step', 1)
    s.refused('look 7', 1)

    s.note('2: word 0 = 0; no register open')
    s.fresh()
    s.stage('put 7 5 97')
    s.commit(1)
    s.say('poke 0 0')
    s.refused('open', 2)
    for line in ('look 7', 'put 7 0 0', 'delete 7', 'commit', 'abandon'):
        s.refused(line, 2)
    s.say('step', 'idle')
    s.say('poke 0 1')
    s.open()

    s.note('3: directory word 3. 4: first word 3. 5: pointer 0. 6: put and delete of 7, both version 2')
    for number, pokes in ((3, {10: 3}), (4, {515: 3}), (5, {515: first_word(1, 1, 1, 0), 516: 8}),
                          (6, {515: first_word(1, 0, 2, 0), 516: 7, 517: first_word(2, 0, 2, 0), 518: 7})):
        for w, v in pokes.items():
            s.say(f'poke {w} {v}')
        s.refused('open', number)
        s.say('step', 'idle')
        for w in pokes:
            s.say(f'poke {w} 0')
        s.open()
        s.say('look 7', 'value 4112 5 1495')

    s.note('7: table of 3 words, put; an opening with a key; a table of 4 words holds one key, staged ones counted')
    s.fresh(16384, 3)
    s.refused('put 7 5 97', 7)
    s.fresh(16384, 4)
    s.stage('put 7 5 97')
    s.refused('put 8 5 97', 7)
    s.stage('put 7 0 0')
    s.commit(1)
    s.refused('put 8 5 97', 7)
    s.say('table 3')
    s.refused('open', 7)

    s.note('8: a commit in a commit; other calls but look-up too, and in a staging; look-up too in a formatting')
    s.fresh()
    s.say('put 7 5 97', 'begun 0')
    for line in ('commit', 'abandon', 'put 8 0 0', 'delete 7', 'format - -'):
        s.refused(line, 8)
    s.run(1)
    s.say('commit', 'begun 13')
    for i in range(6):
        s.say('step')
        s.refused('commit', 8)
    for line in ('commit', 'abandon', 'put 8 0 0', 'delete 7', 'format - -'):
        s.refused(line, 8)
    s.run(8)
    s.say('look 7', 'value 4112 5 1495')
    s.say('format 1 2', 'begun 582')
    s.refused('format 1 2', 8)
    s.refused('look 7', 8)
    s.run(583)

    s.note('9: a put of 4,089 bytes')
    s.fresh()
    s.refused('put 7 4089 0', 9)
    s.stage('put 7 256 0')
    s.say('abandon', 'abandoned')

    s.note('10: a 17th item, a put and a delete')
    for k in range(16):
        s.stage(f'put {k} 0 0')
    s.refused('put 16 0 0', 10)
    s.refused('put 3 0 0', 10)
    s.refused('delete 3', 10)
    s.commit(4)

    s.note('11: delete 5, empty register; staged items counted')
    s.fresh()
    s.refused('delete 5', 11)
    s.refused('look 5', 11)
    s.stage('put 5 1 1')
    s.stage('delete 5')
    s.refused('delete 5', 11)
    s.commit(1)
    s.refused('delete 5', 11)
    s.refused('look 5', 11)

    s.note('12: put at 1,048,574; a delete may have the last version')
    s.fresh()
    s.pokes({9: 257, 512: first_word(1, 0, 1_048_573, 0), 513: 7})
    s.open()
    s.stage('put 7 1 1')
    s.refused('put 7 1 1', 12)
    s.refused('put 7 257 1', 12)
    s.commit(1)
    s.say('word 520', f'word 520 {first_word(1, 0, 1_048_574, 1)}')
    s.refused('put 7 1 1', 12)
    s.stage('delete 7')
    s.refused('put 7 1 1', 12)
    s.refused('delete 7', 11)
    s.commit(1)
    s.say('word 528', f'word 528 {first_word(2, 0, 1_048_575, 0)}')
    s.refused('put 7 1 1', 12)
    s.refused('delete 7', 11)
    s.refused('look 7', 11)

    s.note('12: an older image with a put at the last version opens; the key is neither put nor deleted')
    s.fresh()
    s.pokes({9: 257, 512: first_word(1, 0, 1_048_575, 0), 513: 7})
    s.open()
    s.say('look 7', 'value 4112 0 0')
    s.refused('put 7 1 1', 12)
    s.refused('delete 7', 12)

    s.note('13: a full log: two chunks free, where a put asks for three; deletes alone need two')
    s.fresh()
    for k in range(15):
        s.stage(f'put {k} 256 {k}')
    s.commit(64)
    s.stage('put 7 0 0')
    s.refused('commit', 13)
    s.stage('delete 8')
    s.refused('commit', 13)
    s.say('abandon', 'abandoned')
    s.stage('delete 8')
    s.stage('delete 9')
    s.commit(1)
    s.directory(1 | 64 << 8, 257, 0)
    s.stage('put 7 0 0')
    s.commit(1)
    s.directory(1 | 64 << 8, 513, 0)
    s.say('look 7')
    s.say('look 8', 'refused 11')
    s.say('look 10')

    s.note('13: 257 bytes with two chunks free and no data chunk')
    s.fresh()
    s.stage('put 7 0 0')
    s.commit(1)
    s.refused('put 7 257 0', 13)
    s.stage('put 7 256 0')
    s.say('abandon', 'abandoned')

    s.note('14: commit on a fresh register; abandon too')
    s.fresh()
    s.refused('commit', 14)
    s.refused('abandon', 14)
    s.say('sum')


def two_windows(s):
    s.note('A version in hand: two windows look the same version up, and the second that stages for it gets 17')
    s.fresh()
    s.stage('putat 7 0 5 104')
    s.commit(1)
    s.say('lookv 7', 'value 4112 5 1600 1')
    s.stage('putat 7 1 3 65')
    s.refused('putat 7 1 3 66', 17)
    s.refused('deleteat 7 1', 17)
    s.commit(1)
    s.refused('putat 7 1 3 66', 17)
    s.say('lookv 7', 'value 4176 3 398 2')
    s.stage('putat 7 2 3 66')
    s.commit(1)
    s.say('show 7')
    s.note('0 names a key neither known nor staged; a deleted key has the version of its delete')
    s.refused('putat 7 0 1 1', 17)
    s.stage('deleteat 7 3')
    s.commit(1)
    s.refused('lookv 7', 11)
    s.refused('putat 7 0 1 1', 17)
    s.refused('deleteat 7 4', 11)
    s.stage('putat 7 4 1 1')
    s.refused('putat 9 1 0 0', 17)
    s.stage('putat 9 0 0 0')
    s.refused('putat 9 0 0 0', 17)
    s.stage('deleteat 9 1')
    s.note('9 and 11 come before 17, and 12 behind it')
    s.refused('putat 9 7 4089 1', 9)
    s.refused('deleteat 9 7', 11)
    s.say('abandon', 'abandoned')
    s.stage('put 5 0 0')
    s.commit(1)
    s.pokes({544: first_word(1, 0, 1_048_574, 0)})
    s.open()
    s.say('lookv 5', 'value 4368 0 0 1048574')
    s.refused('putat 5 1048573 1 1', 17)
    s.refused('putat 5 1048574 1 1', 12)
    s.stage('deleteat 5 1048574')


BUSY = 'commit', 'abandon', 'put 8 0 0', 'putat 8 0 0 0', 'delete 7', 'deleteat 7 1', 'choose', 'clean 1', 'format - -'


def reprints(s):
    s.note('Reprints in an unfinished call: look-up answers from the register before it, old places and versions included,')
    s.note('and from its last fence on from the one that it makes; every other call gets 8. A staging shows nothing of itself')
    s.fresh()
    s.reprints('put 7 5 97', 0, {7: None, 8: None}, {7: None, 8: None}, inside=BUSY)
    for line in ('put 8 3 10', 'put 9 0 0'):
        s.reprints(line, 0, {7: None, 8: None, 9: None}, {7: None, 8: None, 9: None})
    s.reprints('commit', 13, {7: None, 9: None}, {7: (4112, 5, 97, 1), 8: (4136, 3, 10, 1), 9: (4160, 0, 0, 1)})
    s.directory(257, 0, 0)
    s.note('behind the lines of a log chunk: 7 is put again, 8 deleted, 10 is new, 9 is not in the batch and 11 is known to none')
    before = {7: (4112, 5, 97, 1), 8: (4136, 3, 10, 1), 9: (4160, 0, 0, 1), 10: None, 11: None}
    for line in ('put 7 9 1', 'delete 8', 'put 10 1 65'):
        s.reprints(line, 0, before, before)
    s.reprints('commit', 22, before, {7: (4176, 9, 1, 2), 8: None, 9: (4160, 0, 0, 1), 10: (4224, 1, 65, 1), 11: None}, inside=BUSY)
    s.directory(769, 0, 0)
    s.say('show 7', 'value 7 9 285 010203040506070809')
    s.note('the same batch is put back by another: 7 by a shorter value, 8 put anew behind its delete, 10 deleted')
    before = {7: (4176, 9, 1, 2), 8: None, 10: (4224, 1, 65, 1)}
    for line in ('put 7 0 0', 'put 8 1 4', 'delete 10'):
        s.stage(line)
    s.say('commit', 'begun 13')
    for i in range(11):
        s.say('step')
    s.say('word 9', 'word 9 1025')                  # the directory word is stored, the last fence not reported
    s.looks(before)
    s.say('show 8', 'absent 8')
    s.say('show 10', 'value 10 1 65 41')
    s.run(3)
    s.looks({7: (4304, 0, 0, 3), 8: (4320, 1, 4, 3), 10: None})
    s.say('show 8', 'value 8 1 4 04')
    s.note('in a free chunk, where the log has no space')
    s.fresh(20480)
    s.pokes({9: 1 | 64 << 8, 512: first_word(1, 0, 4, 0), 513: 7, 514: first_word(1, 0, 1, 0), 515: 8})
    s.open()
    for line in ('put 7 3 40', 'put 9 0 0', 'delete 8'):
        s.stage(line)
    s.reprints('commit', 13, {7: (4112, 0, 0, 4), 8: (4128, 0, 0, 1), 9: None}, {7: (8208, 3, 40, 5), 8: None, 9: (8232, 0, 0, 1)})
    s.directory(1 | 64 << 8, 257, 0, 0)
    s.note('a commit of two puts of one key shows neither before its last fence, and the last from then on')
    s.stage('put 7 2 1')
    s.stage('put 7 1 9')
    s.reprints('commit', 13, {7: (8208, 3, 40, 5)}, {7: (8296, 1, 9, 7)})
    s.note('a call left unfinished, and opened anew behind its last fence or before it')
    s.stage('put 7 0 0')
    s.say('commit', 'begun 13')
    s.say('step')
    s.looks({7: (8296, 1, 9, 7)})
    s.open()
    s.looks({7: (8296, 1, 9, 7)})
    s.stage('put 7 0 0')
    s.say('commit', 'begun 13')
    for i in range(13):
        s.say('step')
    s.looks({7: (8336, 0, 0, 8)})
    s.open()
    s.looks({7: (8336, 0, 0, 8)})
    s.note('1 before the answer: a lent length unlike that at opening, in a commit')
    s.stage('put 7 0 0')
    s.say('commit', 'begun 13')
    s.say('step')
    s.say('table 65')
    for line in ('look 7', 'lookv 7', 'look 8', 'commit'):
        s.refused(line, 1)
    s.note('a formatting of an open register: 8 until its end, 1 before it; then 2')
    s.fresh()
    s.stage('put 7 5 97')
    s.commit(1)
    s.say('format - -', 'begun 582')
    for i in range(4):
        for line in ('look 7', 'lookv 7', 'look 8'):
            s.refused(line, 8)
        s.say('step')
    s.say('table 63')
    for line in ('look 7', 'lookv 8', 'step'):
        s.refused(line, 1)
    s.say('table 64')
    for line in ('look 7', 'lookv 7', *BUSY):
        s.refused(line, 8)
    s.run(579)
    for line in ('look 7', 'lookv 7'):
        s.refused(line, 2)
    s.note('a formatting with no register open: 2 throughout, whatever is lent')
    s.say('format - -', 'begun 582')
    for i in range(2):
        for line in ('look 7', 'lookv 7'):
            s.refused(line, 2)
        s.say('step')
    s.say('table 63')
    s.refused('look 7', 2)
    s.refused('format - -', 8)


def reprints_large(s):
    s.note('Reprints in a put of a large value: its block is written, and look-up shows the register before it; likewise in its commit')
    s.fresh(24576)
    s.stage('put 7 5 97')
    s.commit(1)
    before = {7: (4112, 5, 97, 1), 8: None}
    s.reprints('put 7 257 3', 41, before, before, inside=BUSY)
    s.block('put 8 300 5', 300, False)
    after = {7: (8200, 257, 3, 2), 8: (8712, 300, 5, 1)}
    s.reprints('commit', 13, before, after)
    s.directory(513, 514, 0, 0, 0)
    s.note('in another block of the chunk, and of another size; then a commit that leaves both blocks free, and the lowest taken again')
    s.block('put 7 504 1', 504, False)
    s.block('put 8 505 2', 505, True)
    s.reprints('commit', 13, after, {7: (9224, 504, 1, 3), 8: (12296, 505, 2, 2)})
    s.directory(769, 514, 770, 0, 0)
    after = {7: (9224, 504, 1, 3), 8: (12296, 505, 2, 2)}
    s.reprints('put 7 400 9', 58, after, after)
    s.reprints('delete 8', 0, after, after)
    s.reprints('commit', 13, after, {7: (8200, 400, 9, 4), 8: None})
    s.note('in a cleaning of the log chunk the entry moves and the block stays; in that of the data chunk that holds none any more')
    s.reprints('clean 1', 16, {7: (8200, 400, 9, 4), 8: None}, {7: (8200, 400, 9, 4), 8: None}, 'end 1')
    s.reprints('clean 3', 3, {7: (8200, 400, 9, 4), 8: None}, {7: (8200, 400, 9, 4), 8: None}, 'end 0')
    s.directory(0, 514, 0, 257, 0)


# ---- choosing and cleaning

def four_chunks_cleaned(s):
    s.note('Four chunks, put 7 and put 9, then delete 9. Cleaning chunk 1 copies 1 entry: word of chunk 1 is 0, of chunk 2 is 257.')
    s.fresh()
    s.stage('put 7 5 97')
    s.stage('put 9 0 0')
    s.commit(1)
    s.stage('delete 9')
    s.commit(1)
    s.directory(513, 0, 0)
    s.say('choose', 'chunk 1')
    s.say('kept', 'kept')
    s.clean(1, 1, 1)
    s.directory(0, 257, 0)
    s.say('word 1024', 'word 1024 83886097')
    s.say('look 7', 'value 8208 5 1495')
    s.say('show 7', 'value 7 5 1495 6162636465')
    s.say('look 9', 'refused 11')
    s.say('keys', 'keys 1')                         # of 9 no entry is left
    s.refused('choose', 16)
    s.say('sum')
    s.note('opened anew: the same; and 9 begins at version 1 again')
    s.say('record')
    s.open()
    s.say('look 7', 'value 8208 5 1495')
    s.refused('look 9', 11)
    s.say('keys', 'keys 1')
    s.stage('put 9 3 40')
    s.commit(1)
    s.say('word 1032', f'word 1032 {first_word(1, 0, 1, 3)}')
    s.note('a key deleted at the last version begins at version 1 again once its entries are cleaned away')
    s.fresh()
    s.pokes({9: 257, 512: first_word(1, 0, 1_048_574, 0), 513: 7})
    s.open()
    s.stage('delete 7')
    s.commit(1)
    s.refused('put 7 1 1', 12)
    s.say('choose', 'chunk 1')
    s.clean(1, 0, 0)
    s.stage('put 7 1 1')
    s.commit(1)
    s.say('word 512', f'word 512 {first_word(1, 0, 1, 1)}')
    s.note('the cleaning step by step: as a commit of its line, then the freeing')
    s.fresh()
    s.stage('put 7 5 97')
    s.commit(1)
    s.say('clean 1', 'begun 16')
    for i in range(8):
        s.say('step')
    for answer in ('flush 128', 'fence', 'store 10 257', 'flush 1', 'fence', 'store 9 0', 'flush 1', 'fence', 'end 1', 'idle'):
        s.say('step', answer)
    s.directory(0, 257, 0)


def deletes_kept(s):
    s.note('A delete stays while an older put of its key is committed elsewhere; without one it is dropped')
    s.fresh(20480)
    s.pokes({9: 257, 512: first_word(1, 0, 1, 0), 513: 7, 10: 257, 1024: first_word(2, 0, 2, 0), 1025: 7})
    s.open()
    s.say('choose', 'chunk 1')                      # of which nothing is kept
    s.clean(2, 1, 1)
    s.directory(513, 0, 0, 0)
    s.refused('look 7', 11)
    s.say('keys', 'keys 1')
    s.clean(1, 0, 0)
    s.directory(0, 0, 0, 0)
    s.say('keys', 'keys 0')
    s.refused('look 7', 11)
    s.say('sum')


def chosen(s):
    s.note('Choosing: the fewest bytes to copy, padding not counted; of equals the most committed lines; none that gains no line')
    s.fresh(24576)
    put = first_word(1, 0, 1, 0)
    longer = first_word(1, 0, 1, 3)
    s.pokes({9: 2 << 8 | 1, 512: longer, 513: 1, 514: 7, 10: 2 << 8 | 1, 1024: put, 1025: 2, 11: 64 << 8 | 1, 1536: put, 1537: 3,
             12: 257, 2048: put, 2049: 4})
    s.open()
    for chunk, copied in ((3, 1), (2, 1), (1, 3)):  # the first two go behind chunk 1's lines
        s.say('choose', f'chunk {chunk}')
        s.say('kept', 'kept')
        s.clean(chunk, 1, copied)
    s.refused('choose', 16)
    for k in (1, 2, 3, 4):
        s.say(f'look {k}')
    s.say('sum')
    s.note('Of equally few bytes and as many lines the highest number; and again, when it is cleaned')
    s.fresh(24576)
    s.pokes({8 + c: 3 << 8 | 1 for c in (1, 2, 3, 4)})
    s.pokes({512 * c + i: w for c in (1, 2, 3, 4) for i, w in enumerate((put, c))})
    s.pokes({12: 2 << 8 | 1})
    s.open()
    for chunk in (3, 2):                            # both go behind chunk 1's lines, and it then has more to copy than chunk 4
        s.say('choose', f'chunk {chunk}')
        s.clean(chunk, 1, 1)
    s.say('choose', 'chunk 4')
    s.say('look 3')
    s.note('A staged batch plays no part in choosing')
    s.stage('put 4 1 1')
    s.commit(1)
    s.stage('put 4 1 2')
    s.say('choose')
    s.refused('clean 4', 15)
    s.say('abandon', 'abandoned')


def data_chunks(s):
    s.note('A data chunk with no live block is only freed; one with a live block gets 16')
    s.fresh(20480)
    s.pokes({9: 257, 512: first_word(1, 1, 1, 48), 513: 5, 11: 2 << 8 | 2, 1536: 300, 12: 770})
    s.open()
    s.refused('clean 3', 16)
    s.refused('choose', 16)
    s.say('look 5', 'value 12296 300 0')
    s.clean(4, 0, 0)
    s.directory(257, 0, 514, 0)
    s.stage('put 5 1 65')
    s.commit(1)
    s.clean(3, 0, 0)
    s.directory(513, 0, 0, 0)
    s.say('show 5')


def interrupted(s):
    s.note('A cleaning that is left after its copy is committed: twins, of which the first is chosen; and cleaned again')
    s.fresh()
    s.stage('put 7 5 97')
    s.commit(1)
    s.say('clean 1', 'begun 16')
    for i in range(13):
        s.say('step')
    s.say('record')
    s.open()
    s.directory(257, 257, 0)
    s.say('look 7', 'value 4112 5 1495')
    s.say('keys', 'keys 1')
    s.say('choose', 'chunk 2')                      # its entry is no chosen one: nothing is kept
    s.clean(2, 0, 0)
    s.say('look 7', 'value 4112 5 1495')
    s.refused('choose', 16)


def reprints_cleaning(s):
    s.note('Reprints in a cleaning: the old place until the fence of the freeing, though the copy is committed and fenced before it')
    s.fresh()
    for line in ('put 7 5 97', 'put 9 0 0'):
        s.stage(line)
    s.commit(1)
    s.stage('delete 9')
    s.commit(1)
    s.reprints('clean 1', 16, {7: (4112, 5, 97, 1), 9: None, 11: None}, {7: (8208, 5, 97, 1), 9: None, 11: None}, 'end 1', BUSY)
    s.directory(0, 257, 0)
    s.note('back into the chunk before it, which is free')
    s.reprints('clean 2', 16, {7: (8208, 5, 97, 1), 9: None}, {7: (4112, 5, 97, 1), 9: None}, 'end 1')
    s.directory(257, 0, 0)
    s.note('into a log chunk before the cleaned one; of 8, in both, the later version is kept, of 9 the delete')
    s.fresh(20480)
    s.pokes({10: 257, 1024: first_word(1, 0, 1, 3), 1025: 8, 1026: 0x030201, 1027: first_word(1, 0, 1, 0), 1028: 9,
             11: 513, 1536: first_word(1, 0, 2, 0), 1537: 8, 1538: first_word(1, 0, 6, 2), 1539: 7, 1540: 0x0201,
             1541: first_word(2, 0, 2, 0), 1542: 9})
    s.open()
    s.reprints('clean 3', 16, {7: (12320, 2, 1, 6), 8: (12304, 0, 0, 2), 9: None},
               {7: (8288, 2, 1, 6), 8: (8272, 0, 0, 2), 9: None}, 'end 3')
    s.directory(0, 513, 0, 0)
    s.note('a cleaning that only frees: a log chunk whose keys stand later elsewhere, and one whose deletes are dropped')
    s.fresh(20480)
    s.pokes({9: 257, 512: first_word(1, 0, 1, 0), 513: 7, 10: 257, 1024: first_word(1, 0, 2, 0), 1025: 7,
             11: 257, 1536: first_word(2, 0, 3, 0), 1537: 9})
    s.open()
    for chunk in (1, 3):
        s.reprints(f'clean {chunk}', 3, {7: (8208, 0, 0, 2), 9: None}, {7: (8208, 0, 0, 2), 9: None}, 'end 0')
    s.directory(0, 257, 0, 0)
    s.note('left when the chunk is freed but not fenced: the old place; opened anew, the new one')
    s.say('clean 2', 'begun 16')
    for i in range(15):
        s.say('step')
    s.looks({7: (8208, 0, 0, 2)})
    s.open()
    s.looks({7: (4112, 0, 0, 2)})


def version_cleaned(s):
    s.note("a deleted key has its delete's version until its entries are cleaned away; then it is neither known nor staged, which is 0")
    s.fresh()
    s.stage('putat 7 0 5 104')
    s.commit(1)
    s.stage('deleteat 7 1')
    s.commit(1)
    s.refused('putat 7 0 1 1', 17)
    s.say('choose', 'chunk 1')
    s.clean(1, 0, 0)
    s.refused('putat 7 2 1 1', 17)
    s.refused('deleteat 7 2', 11)
    s.stage('putat 7 0 1 1')
    s.commit(1)
    s.say('lookv 7', 'value 4112 1 1 1')
    s.note('a cleaning keeps the version of what it copies')
    s.stage('putat 7 1 3 40')
    s.stage('putat 9 0 0 0')
    s.commit(1)
    s.say('choose', 'chunk 1')
    s.clean(1, 1, 2)
    s.say('lookv 7')
    s.refused('putat 7 1 0 0', 17)
    s.stage('deleteat 7 2')
    s.stage('deleteat 9 1')


def centre_refusals(s):
    s.note('Choosing and cleaning refused. 2 and 1: no register open, a lent length unlike that at opening')
    s.lend()
    for line in ('choose', 'clean 1', 'clean 0'):
        s.refused(line, 2)
    s.fresh()
    s.say('table 65')
    for line in ('choose', 'clean 1'):
        s.refused(line, 1)
    s.say('table 64')
    s.say('image 20480')
    for line in ('choose', 'clean 1'):
        s.refused(line, 1)
    s.note('8: in a staging, a commit, a cleaning and a formatting; every other call but a look-up in a cleaning')
    s.fresh()
    s.say('put 7 5 97', 'begun 0')
    for line in ('choose', 'clean 1'):
        s.refused(line, 8)
    s.run(1)
    s.say('commit', 'begun 13')
    for line in ('choose', 'clean 0'):
        s.refused(line, 8)
    s.run(14)
    s.say('clean 1', 'begun 16')
    for i in range(3):
        s.say('step')
        for line in ('choose', 'clean 1', 'put 7 0 0', 'delete 7', 'commit', 'abandon', 'format - -'):
            s.refused(line, 8)
    s.say('run')
    s.say('look 7', 'value 8208 5 1495')
    s.say('format - -', 'begun 582')
    for line in ('choose', 'clean 1'):
        s.refused(line, 8)
    s.run(583)
    s.note('15: put staged, then cleaning, before 16')
    s.fresh()
    s.stage('put 7 5 97')
    for line in ('clean 1', 'clean 0'):
        s.refused(line, 15)
    s.note('16: chunk 0, free, past the count; choosing finds none')
    s.say('abandon', 'abandoned')
    for chunk in (0, 1, 4, 503, 504, 505, 2 ** 32, 2 ** 64 - 1):
        s.refused(f'clean {chunk}', 16)
    s.refused('choose', 16)
    s.note('13: no other log chunk with space, none free; a chunk of which nothing is kept needs none')
    full = 1 | 64 << 8
    s.fresh()
    s.pokes({9: full, 512: first_word(1, 0, 1, 0), 513: 1, 10: full, 1024: first_word(1, 0, 1, 0), 1025: 2,
             11: full, 1536: first_word(1, 0, 1, 0), 1537: 3})
    s.open()
    s.say('choose', 'chunk 3')
    for chunk in (1, 2, 3):
        s.refused(f'clean {chunk}', 13)
    s.pokes({1025: 1})
    s.open()
    s.say('choose', 'chunk 2')
    s.refused('clean 1', 13)
    s.clean(2, 0, 0)
    s.clean(1, 1, 1)
    s.directory(0, 257, full)
    s.say('look 1')
    s.say('sum')


def large_chunks(s):
    s.note('Chunks of 65,536 bytes. The powers that a formatting takes, and the lengths that each allows')
    for nbytes, power in ((262144, 11), (262144, 13), (262144, 15), (262144, 17), (262144, 0), (262144, 2 ** 64 - 1), (16384, 16), (196608, 16),
                          (262080, 16)):
        s.lend(nbytes)
        s.refused(f'format - - {power}', 1)
    s.note('Five large chunks: the header has the power as its last field, by bit 3 of its map')
    s.lend(327680, 4096)
    s.format(7, 9, 16)
    for w in range(8):
        s.say(f'word {w}')
    s.open()
    s.note('9 behind 65,528 bytes; 257 bytes take 2 units, 5,113 bytes 21 for 20, 65,528 a whole chunk')
    s.refused('put 1 65529 0', 9)
    s.stage('put 9 3 1')
    s.commit(1)
    s.block('put 1 257 1', 257, True)
    s.block('put 2 504 2', 504, False)
    s.commit(1)
    s.refused('put 3 5113 3', 13)
    s.say('look 1')
    s.say('look 2')
    s.stage('delete 1')
    s.stage('delete 2')
    s.commit(1)
    s.clean(2, 0, 0)
    s.block('put 4 5112 4', 5112, True)
    s.block('put 5 5368 5', 5368, False)
    s.commit(1)
    s.directory(1 | 4 << 8, 2 | 21 << 8, 0, 0)
    for k in (4, 5):
        s.say(f'look {k}')
    s.note('A closing. A header that says another power, or 12, for such an image')
    s.say('record')
    s.open()
    s.say('look 5')
    s.say('sum')
    for power in (12, 15, 17):
        s.pokes({4: power, 7: -(15 + 5 + 7 + 9 + power) % 2 ** 64})
        s.say('open', 'refused 2')


COUNTER = (four_chunks, steps, numbered_header, abandoned, full_batch, refusals, two_windows, reprints)
CENTRE = (four_chunks_cleaned, deletes_kept, chosen, data_chunks, interrupted, reprints_cleaning, version_cleaned, centre_refusals)
ARCHIVE = (blocks, reprints_large, large_chunks)


def script(parts):
    s = Script()
    s.say('aloud')
    for part in parts:
        part(s)
    return s.lines


def size_table():
    """What crates/sizes prints: the block size that holds 0 to 256 units of a large chunk, by the rules' two divisions."""
    return ''.join(f'{256 // (256 // u) if u >= 2 else 0}\n' for u in range(257))


if __name__ == '__main__':
    check = '--check' in sys.argv
    kept = keep_texts('sizes', {'stdout': size_table()}, check)
    sys.exit(keep('player', make_images.script() + script(COUNTER + CENTRE + ARCHIVE), check) or kept)
