#!/usr/bin/env python3
"""Brings the repository's own names to the spelling of the installed Rattle, where the kit's scripts left them.

usage: python3 tools/respell.py [FILE..]    at the top of the repository; with no file: each .antt and .rt file of crates/

Run once, after the kit's port.py. Definitions, lemmas, fields and variables are in snake case: a part of a name that
begins with a small letter gets an underscore before each of its capitals (wordsFrom is words_from, slice-wordsOf is
slice-words_of). Types, facts, modules and constructors, which begin with a capital, stay, as do names with a dash.
In .rt files strings stay as they are. A lemma that would have the name of its definition ends in _lem (LEMMAS), and a
definition does not have a tactic's name (TACTIC). It prints where two names of one file have the same spelling now: they
are a function of src/ and the definition that it computes, which live apart, and nothing else.
"""
import glob
import re
import sys

# parts that name a word of the library by its older name
OLDER = {"getD": "get_or"}

# lemmas that would have the name of the definition that they are about, and the files that state or cite them
LEMMAS = {
    "block_size": "theory_base/proofs/Sizes theory_plans/proofs/Staging theory_plans/proofs/Room staging/proofs/Begun forward/proofs/Plans",
    "in_use": "theory_plans/proofs/Cleaning theory_plans/proofs/RoomClean theory_plans/proofs/KeptVersions cleaning/proofs/PlanShows",
    "kept_in": "theory_plans/proofs/KeptVersions forward/proofs/Cleaning",
    "read_at": "session/proofs/Gates lookup/proofs/Looks lookup/proofs/Answers",
    "chunk_in": "session/proofs/Part stepping/proofs/Keeping stepping/proofs/Cleaned committing/proofs/Begins cleaning/proofs/Starts",
    "last_digits": "text/proofs/Decimals",
    "bit_in": "buffer/proofs/Laws buffer/proofs/has_bit/Proof placing/proofs/Full",
}
# the definition of this name would have a tactic's name; the function of src/ keeps it
TACTIC = (re.compile(r"(?<![A-Za-z0-9_'.:-])(?<!fn )first_of(?![A-Za-z0-9_'(-])"), "first_of_word")
PART = re.compile(r"(?<![A-Za-z0-9_'\\])[a-z][A-Za-z0-9_']*")
STRING = re.compile(r'"(?:[^"\\\n]|\\.)*"')
NAME = re.compile(r"[A-Za-z_][A-Za-z0-9_'-]*")


def respelled(part):
    if part in OLDER:
        return OLDER[part]
    return re.sub(r"(?<=[a-z0-9'])([A-Z])", lambda m: "_" + m.group(1).lower(), part)


def respell(text):
    def turn(m):
        part = m.group(0)
        if not re.search(r"[a-z0-9'][A-Z]", part):
            return part
        return respelled(part)

    return PART.sub(turn, text)


def apart(text):
    """The text outside strings and the strings, in turn."""
    at = 0
    for m in STRING.finditer(text):
        yield text[at:m.start()], True
        yield m.group(0), False
        at = m.end()
    yield text[at:], True


def lemmas(path, text):
    """The text with the lemmas of LEMMAS under names of their own."""
    for name, places in LEMMAS.items():
        if any(path.endswith(f"crates/{p}.antt") for p in places.split()):
            text = re.sub(rf"(?<![A-Za-z0-9_'-]){name}(?![A-Za-z0-9_'-])", name + "_lem", text)
    return text


def turned(path, text):
    if not path.endswith(".rt"):
        return TACTIC[0].sub(TACTIC[1], respell(lemmas(path, text)))
    return "".join(TACTIC[0].sub(TACTIC[1], respell(t)) if code else t for t, code in apart(text))


def names(path, text):
    """The names of a file outside comments."""
    mark = "//" if path.endswith(".rt") else "--"
    found = set()
    for line in text.split("\n"):
        if line.lstrip().startswith(mark):
            continue
        found |= set(NAME.findall(line))
    return found


def main(files):
    if not files:
        files = [f for kind in ("antt", "rt") for f in glob.glob(f"crates/*/**/*.{kind}", recursive=True)]
        files = sorted(f for f in files if "/out/" not in f)
    changed, clashes = 0, 0
    for path in files:
        with open(path, encoding="utf-8") as f:
            text = f.read()
        new = turned(path, text)
        met = {}
        for name in names(path, text):
            to = turned(path, name)
            if to in met:
                print(f"{path}: {met[to]} and {name} are both {to}")
                clashes += 1
            met[to] = name
        if new != text:
            changed += 1
            with open(path, "w", encoding="utf-8") as f:
                f.write(new)
    print(f"{changed} files changed, {clashes} names with the spelling of another")
    return 0


if __name__ == "__main__":
    raise SystemExit(main(sys.argv[1:]))
