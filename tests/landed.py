"""The changes asked for later that have landed, by their numbers in tests/model/CARDS-READING.md: with them the model
plays the rules in force, and every test that compares with the model takes its parts from here.

python3 tests/landed.py    prints the numbers as the programs of tests/model take them (--cards)
"""
import os
import sys

sys.dont_write_bytecode = True
sys.path[:0] = [os.path.join(os.path.dirname(os.path.abspath(__file__)), 'model')]
import register_model                                                           # noqa: E402

CARDS = {1, 3, 4, 5, 6, 8, 9, 11, 14}

REFUSALS = range(1, 18)  # the numbers that a call may refuse with

RULES = register_model.Model(CARDS)


class Station(register_model.Station):
    def __init__(self):
        super().__init__(RULES)


class View(register_model.View):
    def __init__(self, words, nbytes, table_words):
        super().__init__(words, nbytes, table_words, model=RULES)


def list_output(words, nbytes):
    return register_model.list_output(words, nbytes, RULES)


def sheet_output(words, nbytes):
    return register_model.sheet_output(words, nbytes, RULES)


if __name__ == '__main__':
    print(','.join(str(c) for c in sorted(CARDS)))
