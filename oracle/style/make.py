"""Prints a list of texts and of sets with the answers of model.py: make.py SEED TIMES. README.md has the line format."""

import sys

import listing
import sets
import texts


def main():
    seed, times = int(sys.argv[1]), int(sys.argv[2])
    draw = listing.Draw(seed)
    texts.typed()
    texts.slips()
    texts.numbers_at_edges(draw)
    texts.every_byte()
    texts.every_joiner()
    texts.blanks(draw)
    texts.damaged(draw, times)
    texts.order()
    texts.edges(draw)
    texts.of_another_style(draw, times)
    texts.random_lists(draw, times)
    texts.random_slips(draw, times)
    sets.typed()
    sets.runs(draw)
    sets.small_sets(draw)
    sets.edges(draw)
    sets.every_joiner()
    sets.order()
    sets.random_sets(draw, times)
    listing.put(listing.LAST, listing.put.lines + 1)


main()
