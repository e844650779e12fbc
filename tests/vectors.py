#!/usr/bin/env python3
"""A sample of the oracle's answers, which the program `replay` runs and compares in rt ci, with no Rust at hand.

  python3 tests/vectors.py write [--source DIR] [--out DIR]   make crates/replay/stdin and stdout; rustc and Kagari's sources are needed
  python3 tests/vectors.py show                               what the file has, by kind, outcome and answer
  python3 tests/vectors.py reference                          compare the file with the reference in Python, and stdout with their number

How it is made: the sheets of tests/judge_sheets.py, fixed and random (seed
SEED), and the short orders SHORT below are given to the oracle, which
tests/oracle/build.py builds out of Kagari's sources. Of the first TRIED random
sheets one is taken if it has an entry of the table (kind, outcome, answer; or
reason) that was met fewer than ENOUGH times in those taken before, and if it
and its answers are not long, or if the entry is rare. Sheets that the oracle
leaves, and what does not fit into the program's buffers, are not taken. Run
12, which the oracle's program does not know areas for, is stated here: no
order, no byte.

A vector is seven numbers of four bytes, low byte first: room of the output,
length of the sheet, words of each area, what output and areas are filled
with, reason, orders, bytes of answers; then the sheet and the answers. The
program writes how many vectors there were, how many differ, and the index of
the first that differs, or their number.
"""

import argparse
import os
import struct
import sys

import judge_sheets
import orders_compare
import sheet_compare
import sheet_reference
from oracle import build as oracle
from sheet_compare import ALL_LEFT, Batch, Run, in_chunks
from terms_reference import Refused, framed, split

DIRECTORY = os.path.join(oracle.ROOT, "crates", "replay")
SEED = 7
TRIED = 60000
ENOUGH, FEW = 50, 10
LONG = 1500                 # bytes of sheet and answers
BUFFER = 32768
WORDS = 20000
FILLS = (0xffffffff, 0, 0xa5a5a5a5, 1)


# What a run shows

def answer_names(order, value):
    if order[0] in (3, 0):
        return ["done"]
    names = orders_compare.answers_of if 9 <= order[0] <= 20 else lambda order, value: [sheet_compare.answer_name(order, value)]
    try:
        return names(order, value)
    except Refused:
        # An answer that is deeper than what is read.
        return ["deep"]


def entries(sheet, run):
    """The entries of the table that a run adds to."""
    yield "reason %d" % run.reason
    for order, answer in zip(split(sheet)[0], split(run.output)[0]):
        row = sheet_compare.row_of(order)
        yield "%s outcome %d" % (row, answer[0])
        if answer[0] == 0:
            yield from ("%s %s" % (row, name) for name in answer_names(order, answer[1:]))


class Sample:
    """The vectors that were taken."""

    def __init__(self):
        self.counts = {}
        self.vectors = []

    def take(self, room, words, fill, sheet, run):
        for entry in entries(sheet, run):
            self.counts[entry] = self.counts.get(entry, 0) + 1
        numbers = room, len(sheet), words, fill, run.reason, run.orders, len(run.output)
        self.vectors.append(struct.pack("<7I", *numbers) + sheet + run.output)

    def wants(self, sheet, run):
        least = min(self.counts.get(entry, 0) for entry in entries(sheet, run))
        return least < (ENOUGH if len(sheet) + len(run.output) <= LONG else FEW)


def fits(room, sheet, run):
    return run.reason not in ALL_LEFT and room <= BUFFER and len(sheet) <= BUFFER and len(run.output) <= BUFFER


# Making

def short_orders():
    """Orders of a kind and up to two small bytes, in a session with variables. Those of kinds 21 and 22 end early."""
    small = bytes(range(21))
    for kind in small + b"\x15\x16":
        tails = [b""] + [bytes([one]) for one in small] + [bytes([one, two]) for one in small for two in small]
        yield "short", BUFFER, judge_sheets.AREAS, 0, judge_sheets.BEFORE + b"".join(framed(bytes([kind]) + tail) for tail in tails)


def answered(judge, rows):
    """Rows with their runs."""
    for chunk in in_chunks(rows):
        runs = judge.runs([(room, sheet) for _, room, _, _, sheet in chunk])
        for (_, room, areas, _, sheet), run in zip(chunk, runs):
            words = min(WORDS, min(areas))
            yield room, words, sheet, run if words >= judge_sheets.LEAST else Run(12, 0, b"")


def made(judge):
    sample = Sample()
    always = (row for source in (judge_sheets.fixed(), short_orders()) for row in source if row[1] <= BUFFER and len(row[4]) <= BUFFER)
    for room, words, sheet, run in answered(judge, always):
        if fits(room, sheet, run) and (sample.wants(sheet, run) or run.reason):
            sample.take(room, words, FILLS[len(sample.vectors) % len(FILLS)], sheet, run)
    for room, words, sheet, run in answered(judge, judge_sheets.at_random(TRIED, SEED)):
        if fits(room, sheet, run) and sample.wants(sheet, run):
            sample.take(room, words, FILLS[len(sample.vectors) % len(FILLS)], sheet, run)
    return sample


def summary(vectors):
    return b"vectors %010d\ndiffer  %010d\nfirst   %010d\n" % (vectors, 0, vectors)


def write(options):
    try:
        judge = Batch([oracle.build(options.source, options.out), "sheets"])
    except oracle.extract.NotFound as fault:
        sys.exit("oracle: %s" % fault)
    sample = made(judge)
    for name, data in (("stdin", b"".join(sample.vectors)), ("stdout", summary(len(sample.vectors)))):
        with open(os.path.join(DIRECTORY, name), "wb") as file:
            file.write(data)
    print("%d vectors, %d bytes" % (len(sample.vectors), sum(map(len, sample.vectors))))


# Reading

def stored():
    """The vectors of the file: room, words, sheet, run."""
    with open(os.path.join(DIRECTORY, "stdin"), "rb") as file:
        data = file.read()
    at = 0
    while at < len(data):
        room, size, words, _, reason, orders, length = struct.unpack_from("<7I", data, at)
        at += 28
        yield room, words, data[at:at + size], Run(reason, orders, data[at + size:at + size + length])
        at += size + length


def show(options):
    counts, vectors, orders = {}, 0, 0
    for _, _, sheet, run in stored():
        vectors += 1
        orders += run.orders
        for entry in entries(sheet, run):
            counts[entry] = counts.get(entry, 0) + 1
    for entry, count in sorted(counts.items(), key=lambda pair: [int(word) if word.isdigit() else 99 for word in pair[0].split()][:1]):
        print("%-28s%7d" % (entry, count))
    print("%d vectors, %d orders" % (vectors, orders))


def reference(options):
    passed = 0
    for room, words, sheet, run in stored():
        if sheet_reference.run(sheet, room, words=words) != run:
            print("vector %d differs from the reference\n%d passed, 1 failed" % (passed, passed))
            return 1
        passed += 1
    with open(os.path.join(DIRECTORY, "stdout"), "rb") as file:
        if file.read() != summary(passed):
            print("crates/replay/stdout does not say that all of %d vectors agree\n%d passed, 1 failed" % (passed, passed))
            return 1
    print("%d passed, 0 failed" % passed)
    return 0


def main():
    parser = argparse.ArgumentParser(description=__doc__, formatter_class=argparse.RawDescriptionHelpFormatter)
    parser.add_argument("what", choices=("write", "show", "reference"))
    oracle.arguments(parser)
    options = parser.parse_args()
    return {"write": write, "show": show, "reference": reference}[options.what](options)


if __name__ == "__main__":
    sys.exit(main())
