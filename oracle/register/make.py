"""Prints a list of sets with the registers of model.py: make.py SEED TIMES. README.md has the line format.
make.py small prints the register that the program begins with."""

import sys

import model
import sets
from draw import Draw

LAST = 15


def small():
    print(model.register(model.bits(*sets.SMALL)), end="")


def listed(seed, times):
    draw = Draw(seed)
    sets.typed()
    sets.page_edges(draw)
    sets.word_edges()
    sets.small_sets()
    sets.digits()
    sets.larger_buffers()
    sets.order()
    sets.random_sets(draw, times)
    sets.put(LAST, sets.put.lines + 1)


if sys.argv[1:] == ["small"]:
    small()
else:
    listed(*map(int, sys.argv[1:]))
