"""Scripts of the program crates/player: played on the model of the rules, and kept with what the model says.

A script's commands are those of tests/model/PROTOCOL.md and these:

  lend N W     the image is N bytes, all zero; the key table is W words, which hold what they held
  fill P N V   N words of the image from word P on become V, as far as it has them
  word P       prints `word P V`, the word's value (0 past the end)
  keys         prints `keys N`, the known keys of the open register, or `refused 2`
  show K       prints `value K L H X` (the value's length, its sum as that of `look`, its first 16 bytes in hexadecimal digits),
               `absent K`, or `refused N` where the look-up is refused for another reason
  kept         prints `kept` if the last call left image, table and record as they were (a refused opening: the image as it was, a
               table of zeros, nothing open), else `changed`
  aloud        from here on each line is printed behind `> ` before its answer
  # ...        prints itself
"""
import os
import sys

sys.dont_write_bytecode = True
TESTS = os.path.dirname(os.path.abspath(__file__))
from landed import CARDS                                                        # noqa: E402
import replay_model                                                             # noqa: E402
from register_model import Image, Refused                                       # noqa: E402

CALLS = ('format', 'open', 'put', 'putat', 'delete', 'deleteat', 'commit', 'abandon', 'choose', 'clean', 'look', 'lookv', 'step', 'run')


class Model(replay_model.Player):
    """The station on which a script is played. A line's answer is None where it has none."""
    def __init__(self):
        super().__init__(CARDS)
        self.kept, self.aloud = True, False

    def memory(self):
        st = self.st
        p = st.pending
        pending = p and (p.kind, list(p.actions), p.result, p.lengths)
        return list(self.image), st.open_length, st.table_words, list(st.staged), pending

    def shown(self, key):
        self.st.lent_table = self.table
        try:
            v = self.st.look_up(self.image, key)
        except Refused as r:
            return f'absent {key}' if r.number == 11 else f'refused {r.number}'
        return f'value {key} {len(v)} {sum((i + 1) * b for i, b in enumerate(v))} {v[:16].hex()}'.rstrip()

    def printed(self, line):
        """What a line prints, without the last line feed; None where that is nothing."""
        before = [f'> {line}'] if self.aloud and not line.startswith('#') else []
        answer = self.line(line)
        out = before + ([] if answer is None else [answer])
        return '\n'.join(out) if out else None

    def line(self, line):
        w = line.split(' ')
        if w[0] == 'aloud':
            self.aloud = True
            return None
        if line.startswith('#'):
            return line
        if w[0] == 'kept':
            return 'kept' if self.kept else 'changed'
        n = [int(x) for x in w[1:]] if w[0] in ('lend', 'fill', 'word', 'show') else []
        if w[0] == 'lend':
            self.image, self.table = Image([0] * (n[0] // 8)), n[1]
            self.image.nbytes = n[0]
            return None
        if w[0] == 'fill':
            for p in range(n[0], min(n[0] + n[1], len(self.image))):
                self.image[p] = n[2]
            return None
        if w[0] == 'word':
            return f'word {n[0]} {self.image[n[0]] if n[0] < len(self.image) else 0}'
        if w[0] == 'keys':
            return 'refused 2' if self.st.open_length is None else f'keys {len(self.st.view(self.image).by_key)}'
        if w[0] == 'show':
            return self.shown(n[0])
        before = self.memory()
        out = self.play(line)
        if w[0] in CALLS:
            self.kept = out.startswith('refused') if w[0] == 'open' else self.memory() == before
        return out


def answers(lines):
    model = Model()
    out = [model.printed(x) for x in lines]
    return ''.join(x + '\n' for x in out if x is not None)


def keep(crate, lines, check):
    """Writes the script and what the model says of it as the crate's stdin and stdout; or compares with those kept. The exit status."""
    return keep_texts(crate, {'stdin': ''.join(x + '\n' for x in lines), 'stdout': answers(lines)}, check)


def keep_texts(crate, texts, check):
    """The same of the crate's files by their names."""
    folder = os.path.join(os.path.dirname(TESTS), 'crates', crate)
    status = 0
    for name, text in texts.items():
        path = os.path.join(folder, name)
        if check:
            kept = open(path).read() if os.path.exists(path) else ''
            if kept != text:
                print(f'{os.path.relpath(path)} is not what the model makes')
                status = 1
        else:
            with open(path, 'w') as f:
                f.write(text)
    return status
