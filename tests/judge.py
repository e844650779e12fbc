#!/usr/bin/env python3
"""The Rust as judge: compares the static library with Kagari's own functions.

  python3 tests/judge.py [--sheets N] [--seed S]        fixed sheets, then random ones
  python3 tests/judge.py --short                        all short orders and sheets, too
  python3 tests/judge.py --slip NAME                    with a slip in the oracle: must find a difference
  python3 tests/judge.py --slip all                     with each of them: passes if every one is found
  python3 tests/judge.py --program crates/sheets/out/sheets      the program `sheets` in the place of the library
  python3 tests/judge.py --checker crates/checker/out/checker    the sheet program, a process for each sheet

The library is crates/entry/out/libentry.a, which `rt lib` writes in crates/entry,
or --library FILE. tests/oracle/build.py says what is taken from the Rust and
what stands around it. Library and oracle are linked into one program
(tests/oracle/judge.rs), which is built first, in target/judge or --out DIR,
and reads sheets from here.

Compared are, for each sheet: the reason, the number of orders, the number of
bytes, the answers; the output past the answers, which is not to be touched;
the areas, all zero at the end, and untouched under run 12; the sheet; and 64
bytes or words before and behind each of the six slices. Output and areas are
filled before, and the areas have the least length, more, or fewer words. At
the first difference orders are taken out as long as the sides differ; the
rest is printed in hexadecimal, and the exit status is 1.

The oracle leaves a sheet at an order that makes the Rust meet more than
400,000 nodes, and at an order 21 or 22 that is not refused, which Kagari does
not have. What was answered before is compared with it, and then the whole run
with the reference in Python (sheet_reference.py), so that the order at which
it was left and what follows are judged too. The last table says how many
sheets were left.

The tables show the outcomes of the random orders and what the unrefused ones
answer. An entry that can occur but is too rare is a failure in a run of
20,000 sheets or more.

Without rustc or without Kagari's sources nothing is compared: that is said,
and the exit status is 1, or 0 where WITHOUT_KAGARI=1 says that this is meant.
--ready tells that alone.
"""

import argparse
import itertools
import os
import shlex
import struct
import subprocess
import sys
import tempfile
import time

import judge_sheets
import judge_slips
import orders_compare
import sheet_compare
import sheet_reference as reference
from comparing import Differs, OutcomeTable, shown, verdict
from oracle import build as oracle
from sheet_compare import ALL_LEFT, OUTCOMES, Batch, Frames, Left, Program, in_chunks
from sheet_reference import Run

LIBRARY = os.path.join(oracle.ROOT, "crates", "entry", "out", "libentry.a")
DECLARED = os.path.join(oracle.ROOT, "bindings", "rust", "src")         # where ffi.rs declares the entry, for all Rust
OUT = os.path.join(oracle.ROOT, "target", "judge")
DEFAULT_SHEETS = 20000
PORTION = 50000             # sheets in a run of the judge
LEAST_SHARE = 0.0003
# By the judge's words for the rows.
CAN_OCCUR = {**{kind: sheet_compare.CAN_OCCUR[kind] for kind in range(9)}, **{kind: orders_compare.CAN_OCCUR[kind] for kind in range(9, 21)},
             21: (1, 2, 3, 8, 13), 22: range(1, 8), "other": (2,), "empty": (1,)}
YES_NO, CHANGES = ("no", "yes"), ("same", "changed")
ANSWERS = {
    1: ("itself", "bound"), 2: ("itself", "bound"), 4: ("incompatible", "compatible", "cancelled"), 5: CHANGES, 6: YES_NO, 7: YES_NO,
    8: ("0", "1", "more"), 9: YES_NO, 10: YES_NO, 11: CHANGES, 12: CHANGES, 13: CHANGES, 14: CHANGES,
    15: ("never", "integer", "concrete", "unresolved", "unknown", "self type", "projection"), 16: YES_NO,
    17: ("neither", "for it", "both"), 18: ("none",) + CHANGES, 19: CHANGES + ("new Error",), 20: CHANGES + ("new Error",)}
REASONS = (0, 10, 11, 12)


# Building

def built(options, slip=None):
    """The judge's path."""
    if not os.path.isfile(options.library):
        sys.exit("there is no library %s: cd crates/entry && rt lib writes it" % options.library)
    texts = oracle.taken(options.source)
    for name in sorted(os.listdir(oracle.HERE)):
        if name.endswith(".rs"):
            texts[name] = oracle.read(oracle.HERE, name)
    texts["ffi.rs"] = oracle.read(DECLARED, "ffi.rs")
    out = options.out if slip is None else os.path.join(options.out, slip)
    oracle.write(texts if slip is None else judge_slips.put_in(slip, texts), out)
    level = ("-C", "opt-level=2") if slip is None else ("-C", "opt-level=0", "-A", "warnings")
    link = ("-L", "native=" + os.path.dirname(os.path.abspath(options.library)), "-l", "static=entry")
    return oracle.compiled(os.path.join(out, "judge.rs"), out, "judge", level + link)


# Frames

def frame(family, room, words, fill, sheet):
    return struct.pack("<8I", judge_sheets.NAMES.index(family), room, *words, fill, len(sheet)) + sheet


def groups(options):
    """The sheets of a whole comparison."""
    yield "fixed sheets", judge_sheets.fixed()
    if options.short:
        yield "short ones", judge_sheets.short()
    yield "random sheets", judge_sheets.at_random(options.sheets, options.seed)


def portions(sheets):
    """The sheets in parts, each for a run of the judge of its own."""
    sheets = iter(sheets)
    for first in sheets:
        yield itertools.chain([first], itertools.islice(sheets, PORTION - 1))


def judged(program, sheets):
    """Gives sheets to the judge: its exit status and its lines."""
    with subprocess.Popen([program], stdin=subprocess.PIPE, stdout=subprocess.PIPE) as process:
        try:
            for each in sheets:
                process.stdin.write(frame(*each))
            process.stdin.close()
        except BrokenPipeError:
            pass
        lines = process.stdout.read().decode().splitlines()
    return process.returncode, lines


# Sheets that the oracle left

def run_of(line):
    """A line of the judge about a run of the library: family, room, sheet, run."""
    _, family, room, reason, orders, sheet, answers = line.split()
    return judge_sheets.NAMES[int(family)], int(room), bytes.fromhex(sheet[1:]), Run(int(reason), int(orders), bytes.fromhex(answers[1:]))


class Library:
    """The library alone, by the judge's program."""

    def __init__(self, program):
        self.program = program

    def runs(self, sheets):
        data = b"".join(frame("fixed", room, judge_sheets.AREAS, 0, sheet) for room, sheet in sheets)
        done = subprocess.run([self.program, "runs"], input=data, stdout=subprocess.PIPE)
        return [run_of(line)[3] for line in done.stdout.decode().splitlines()]


def compare_left(program, lines):
    """The runs among the lines, compared with the reference. Gives the other lines, and what is to be told of the first run that differs."""
    runs = [line for line in lines if line.startswith("run ")]
    rest = [line for line in lines if not line.startswith("run ")]
    for line in runs:
        family, room, sheet, found = run_of(line)
        if found != reference.run(sheet, room):
            return rest, ["a sheet that the oracle left (%s):" % family] + sheet_compare.described(Library(program), room, sheet).splitlines()
    return rest, []


# Tables

class Counts(dict):
    """Counts by the words of the judge's lines, as 'outcome 4 0'."""

    def add(self, lines):
        for words, count in (line.rsplit(" ", 1) for line in lines):
            self[words] = self.get(words, 0) + int(count)

    def of(self, *words):
        return self.get(" ".join(map(str, words)), 0)

    def total(self, *words):
        start = " ".join(map(str, words)) + " "
        return sum(count for key, count in self.items() if key.startswith(start))

    def show(self):
        """Prints the tables; gives the entries that are too rare."""
        def least(total):
            return max(5, LEAST_SHARE * total)
        table = OutcomeTable(CAN_OCCUR, OUTCOMES, ANSWERS, least, least, complete=True)
        for row in CAN_OCCUR:
            for outcome in OUTCOMES:
                table.add(row, outcome, count=self.of("outcome", row, outcome))
        for row, names in ANSWERS.items():
            table.answers[row] = {name: self.of("answer", row, name) for name in names}
        poor = table.show("Outcomes of the orders")
        print("\nReasons     " + ", ".join("%d: %d" % (reason, self.of("reason", reason)) for reason in REASONS))
        return poor + ["reason %d" % reason for reason in REASONS if self.of("reason", reason) < 5]

    def show_sheets(self):
        """How many sheets of each family there were, and how many the oracle left, which were compared with the reference, the latter two at orders 21 and 22."""
        for title, word in (("families", "family"), ("left", "left"), ("left at 21", "ranged"), ("left at 22", "strict")):
            found = ["%s %d" % (name, self.of(word, at)) for at, name in enumerate(judge_sheets.NAMES) if self.of(word, at)]
            print("  %-12s%s" % (title, ", ".join(found) or "none"))


# Running

def told(lines):
    """The lines about a difference."""
    _, index, family = lines[0].split()
    return ["sheet %s (%s):" % (index, judge_sheets.NAMES[int(family)])] + lines[1:]


def counted(program, name, sheets):
    """The counts of a group, or None where the sides differ, which is told."""
    counts, start = Counts(), time.time()
    for part in portions(sheets):
        status, lines = judged(program, part)
        if status != 0:
            differs = told(lines) if lines and lines[0].startswith("differs") else ["the judge ends with status %d" % status] + lines
        else:
            lines, differs = compare_left(program, lines)
        if differs:
            print("%s, after %d that agree, %s" % (name, counts.total("family"), "\n".join(differs)))
            return None
        counts.add(lines)
        done = counts.total("family"), counts.total("outcome"), time.time() - start
        print("%-14s%9d sheets%11d orders%7d s" % (name, *done), flush=True)
    counts.show_sheets()
    return counts


def check(options):
    program, passed, poor = built(options), 0, []
    for name, sheets in groups(options):
        counts = counted(program, name, sheets)
        if counts is None:
            print("%d passed, 1 failed" % passed)
            return 1
        passed += counts.total("family")
        if name == "random sheets":
            poor = counts.show()
    return verdict(passed, poor if options.sheets >= DEFAULT_SHEETS else [])


def check_slip(options, name, path):
    """Whether the judge with a slip finds a difference in the frames of a file; prints it."""
    program = built(options, name)
    with open(path, "rb") as file:
        done = subprocess.run([program], stdin=file, stdout=subprocess.PIPE)
    lines = done.stdout.decode().splitlines()
    if done.returncode == 0:
        lines = compare_left(program, lines)[1]
    elif lines and lines[0].startswith("differs"):
        lines = told(lines)
    else:
        lines = []
    if not lines:
        print("%-32s NOT FOUND" % name, flush=True)
        return False
    print("%-32s %s\n    %s" % (name, lines[0], "\n    ".join(lines[1:])), flush=True)
    return True


def check_slips(options):
    names = list(judge_slips.SLIPS) if options.slip == "all" else [options.slip]
    with tempfile.TemporaryDirectory() as directory:
        path = os.path.join(directory, "frames")
        with open(path, "wb") as file:
            file.writelines(frame(*each) for each in judge_sheets.at_random(options.sheets, options.seed))
        found = sum(check_slip(options, name, path) for name in names)
    print("%d passed, %d failed" % (found, len(names) - found))
    return 0 if found == len(names) else 1


def same(found, wanted):
    """Whether a program's run is the wanted one, as far as the oracle went on; the sheet program tells the answers alone."""
    if wanted.reason in ALL_LEFT:
        return found.output.startswith(wanted.output)
    return found.output == wanted.output and found[:2] in ((None, None), wanted[:2])


def judges(room, sheet, wanted):
    """The runs that are asked for: the oracle's, and the reference's where the oracle left the sheet."""
    yield "oracle", wanted
    if wanted.reason in ALL_LEFT:
        yield "reference", reference.run(sheet, room)


def check_program(options):
    """The proved program against the oracle, sheet by sheet."""
    judge = Batch([oracle.build(options.source, options.out), "sheets"])
    program = Frames(shlex.split(options.program)) if options.program else Program(shlex.split(options.checker))
    passed, left = 0, Left()
    sheets = (each for source in (judge_sheets.fixed(), judge_sheets.at_random(options.sheets, options.seed)) for each in source
              if len(each[4]) <= judge_sheets.LENGTH and program.takes(each[1], each[4]) and min(each[2]) >= judge_sheets.LEAST)
    for chunk in in_chunks(sheets):
        pairs = [(room, sheet) for _, room, _, _, sheet in chunk]
        try:
            runs = zip(chunk, program.runs(pairs), judge.runs(pairs))
        except Differs as difference:
            print("%s\n%d passed, 1 failed" % (difference.args[0], passed))
            return 1
        for (family, room, _, _, sheet), found, wanted in runs:
            for name, run in judges(room, sheet, wanted):
                if not same(found, run):
                    print("%s, room %d: %s\n%-9s %s %s: %s\nprogram   %s %s: %s\n%d passed, 1 failed" % (
                        family, room, shown(sheet), name, *run[:2], shown(run.output), *found[:2], shown(found.output), passed))
                    return 1
            left.add(wanted)
            passed += 1
    left.show()
    print("%d passed, 0 failed" % passed)
    return 0


def main():
    parser = argparse.ArgumentParser(description=__doc__, formatter_class=argparse.RawDescriptionHelpFormatter)
    parser.add_argument("--sheets", type=int, default=DEFAULT_SHEETS, metavar="N")
    parser.add_argument("--seed", type=int, default=1, metavar="S")
    parser.add_argument("--short", action="store_true")
    parser.add_argument("--slip", choices=["all"] + list(judge_slips.SLIPS), metavar="NAME")
    parser.add_argument("--program", metavar="COMMAND")
    parser.add_argument("--checker", metavar="COMMAND")
    parser.add_argument("--ready", action="store_true")
    parser.add_argument("--library", default=LIBRARY, metavar="FILE")
    oracle.arguments(parser, OUT)
    options = parser.parse_args()
    try:
        oracle.taken(options.source)
    except oracle.Absent as fault:
        return oracle.left_out("judge", fault)
    if options.ready:
        return 0
    if options.program or options.checker:
        return check_program(options)
    return check_slips(options) if options.slip else check(options)


if __name__ == "__main__":
    sys.exit(main())
