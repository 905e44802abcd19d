"""Prints a list of sheets and of writer calls with the answers of model.py: make.py SEED TIMES. README.md has the line format."""

import sys

import calls
import listing
import readings


def main():
    seed, times = int(sys.argv[1]), int(sys.argv[2])
    draw = listing.Draw(seed)
    readings.kinds_at_edges(draw)
    readings.bad_payloads()
    readings.newer_and_remarks()
    readings.order()
    readings.damaged(draw, times)
    readings.random_sheets(draw, times)
    calls.calls_at_edges()
    calls.calls_for_space()
    calls.random_calls(draw, times)
    calls.additions_to_given()
    calls.fullest_sheets()
    listing.put("f", listing.put.lines + 1)


main()
