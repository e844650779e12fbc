#!/usr/bin/env python3
"""Compares a program with the reference on random whole sheets.

  python3 tests/sheet_compare.py --program PROGRAM [--sheets N] [--seed S]
  python3 tests/sheet_compare.py --oracle           the oracle, which is built first
  python3 tests/sheet_compare.py --batch COMMAND    a program that takes many sheets
  python3 tests/sheet_compare.py --frames COMMAND   the program `sheets`
  python3 tests/sheet_compare.py --self             the plain reference in the place of the program
  python3 tests/sheet_compare.py --slip NAME ...    with a reference that has one fault: must fail
  python3 tests/sheet_compare.py --slip all ...     with each of them: passes if every one fails

--program and --oracle may be given together: each is compared with the
reference.

The program reads a sheet of at most 32,768 bytes from standard input and
writes the answers, at most 32,768 bytes; it is started once for a sheet. Of
the random sheets those with less room are left to the oracle.

A COMMAND of --batch takes a run of sheets, as the oracle does with the
argument sheets: room and length, four bytes each with the low byte first, and
the sheet. It gives for each one the reason, a byte; the orders answered and
the bytes of answers, four bytes each; the answers.

Every byte is compared, and with --oracle and --batch the reason and the
number of orders. Orders are taken out of the first sheet that differs as long
as it differs; it is printed in hexadecimal, and the exit status is 1.

The oracle leaves a sheet where its terms grow too large, and at an order 21
or 22 that is not refused, which Kagari does not have. What it answered before
is compared; the last lines say how many sheets it left.

The tables show the outcomes of the random orders, what the unrefused ones
answer, and the reasons. An entry that can occur but is too rare is a failure
in a run of 20,000 sheets or more.
"""

import argparse
import shlex
import shutil
import struct
import subprocess
import sys

import sheet_cases
import sheet_generate
import sheet_reference as reference
from comparing import Differs, OutcomeTable, program_output, shown, slips_verdict, verdict
from oracle import build as oracle
from sheet_reference import Run, Sheet
from sheet_slips import SLIPS
from terms_reference import framed, split

DEFAULT_SHEETS = 20000
LEAST_SHARE = 0.001
AT_ONCE = 400
# The oracle's reasons for sheets that it left: the terms too large, an order 22, an order 21.
LEFT, NOT_IN_RUST, RANGE_NOT_IN_RUST = 255, 253, 252
ALL_LEFT = {LEFT: "as their terms grew too large", NOT_IN_RUST: "at an order 22", RANGE_NOT_IN_RUST: "at an order 21"}
KINDS = Sheet.KINDS
OUTCOMES = tuple(range(10)) + (13,)
# Of orders 9 to 20 these are asked for here; orders_compare.py has all that can occur.
CAN_OCCUR = {0: (0, 1, 3, 8), 1: (0, 1, 2, 3, 8), 2: (0, 1, 3, 8), 3: range(8), 4: range(8), 5: range(8), 6: (0, 1), 7: (0, 1),
             8: (0, 1), **{kind: (0, 1, 7) for kind in range(9, 21)}, 21: (0, 1, 2, 3, 8, 13), 22: range(8), "other kind": (2,), "empty": (1,)}
VERDICTS = ("incompatible", "compatible", "cancelled")
ANSWERS = {1: ("itself", "bound"), 2: ("itself", "bound"), 4: VERDICTS, 5: ("same", "changed"), 6: ("no", "yes"), 7: ("no", "yes"),
           8: ("0", "1", "more"), 21: ("itself", "bound"), 22: VERDICTS}


# Programs

class Plain:
    """The reference, or one with a slip."""

    def __init__(self, how=Sheet):
        self.how = how

    def takes(self, room, sheet):
        return True

    def runs(self, sheets):
        return [reference.run(sheet, room, self.how) for room, sheet in sheets]


class Batch:
    """A command that takes many sheets."""

    def __init__(self, command):
        self.command = command

    def takes(self, room, sheet):
        return True

    def runs(self, sheets):
        data = b"".join(struct.pack("<II", room, len(sheet)) + sheet for room, sheet in sheets)
        done = subprocess.run(self.command, input=data, stdout=subprocess.PIPE)
        found, at = [], 0
        while at < len(done.stdout):
            reason, orders, size = struct.unpack_from("<BII", done.stdout, at)
            at += 9
            found.append(Run(reason, orders, done.stdout[at:at + size]))
            at += size
        return self.whole(sheets, found, done.returncode)

    def whole(self, sheets, found, status):
        """What was found, where it is a run for each sheet."""
        if len(found) < len(sheets):
            raise Differs("sheet     %s\n%s ends with status %d in it" % (shown(sheets[len(found)][1]), self.command[0], status), len(found))
        if len(found) > len(sheets):
            raise Differs("%s answers %d sheets where %d were given" % (self.command[0], len(found), len(sheets)), len(sheets) - 1)
        return found


class Frames(Batch):
    """The program `sheets`: the words of the areas and what they are filled with are told too, and a byte says that what is left is as promised."""

    def takes(self, room, sheet):
        """The program cuts longer sheets and larger outputs, so that its frames would no longer be these."""
        return len(sheet) <= Sheet.INPUT and room <= Sheet.OUTPUT

    def runs(self, sheets):
        data = b"".join(struct.pack("<IIII", room, len(sheet), 16384 + len(sheet) % 3 * 1808, (len(sheet) * 2654435761 + room) % (1 << 32)) + sheet
                        for room, sheet in sheets)
        done = subprocess.run(self.command, input=data, stdout=subprocess.PIPE)
        found, at = [], 0
        while at < len(done.stdout):
            reason, orders, size, kept = struct.unpack_from("<BIIB", done.stdout, at)
            at += 10
            if kept != 1:
                raise Differs("sheet     %s\nsomething else was touched" % shown(sheets[len(found)][1]), len(found))
            found.append(Run(reason, orders, done.stdout[at:at + size]))
            at += size
        return self.whole(sheets, found, done.returncode)


class Program:
    """The sheet program: one sheet for a process, and the answers alone."""

    def __init__(self, command):
        self.command = command

    def takes(self, room, sheet):
        return room == Sheet.OUTPUT

    def runs(self, sheets):
        return [Run(None, None, program_output(self.command, sheet)) for _, sheet in sheets]


def wanted_of(program, room, sheet, how=Sheet):
    """What the program is to show. The sheet program does not read a longer sheet to its end."""
    if isinstance(program, Program):
        return Run(None, None, reference.program(sheet, how))
    return reference.run(sheet, room, how)


def agrees(wanted, found):
    """Whether a run is the wanted one, as far as the oracle went on."""
    if found.reason in ALL_LEFT:
        return wanted.output.startswith(found.output)
    return wanted == found


class Left:
    """How many sheets the oracle left before their end."""

    def __init__(self):
        self.counts = dict.fromkeys(ALL_LEFT, 0)

    def add(self, run):
        if run.reason in self.counts:
            self.counts[run.reason] += 1

    def show(self):
        for reason, why in ALL_LEFT.items():
            if self.counts[reason]:
                print("%d sheets left by the oracle before their end, %s" % (self.counts[reason], why))


# Differences

def smallest(program, room, sheet, how):
    """The sheet with orders taken out as long as the program differs."""
    def differs(orders, rest):
        data = b"".join(map(framed, orders)) + rest
        try:
            return not agrees(wanted_of(program, room, data, how), program.runs([(room, data)])[0])
        except Differs:
            return True
    orders, rest = split(sheet)
    if rest and differs(orders, b""):
        rest = b""
    size = len(orders)
    while size:
        at = 0
        while at < len(orders):
            fewer = orders[:at] + orders[at + size:]
            if differs(fewer, rest):
                orders = fewer
            else:
                at += size
        size //= 2
    return b"".join(map(framed, orders)) + rest


def described(program, room, sheet, how=Sheet):
    sheet = smallest(program, room, sheet, how)
    wanted = wanted_of(program, room, sheet, how)
    try:
        found = program.runs([(room, sheet)])[0]
    except Differs as difference:
        return difference.args[0]
    orders, rest = split(sheet)
    lines = ["  " + shown(each) for each in orders] + (["  then " + shown(rest)] if rest else [])
    return "room %d, orders:\n%s\nreference %s, %s orders: %s\nprogram   %s, %s orders: %s" % (
        room, "\n".join(lines), wanted.reason, wanted.orders, shown(wanted.output), found.reason, found.orders, shown(found.output))


# Tables

def row_of(order):
    return "empty" if not order else order[0] if order[0] in KINDS else "other kind"


def answer_name(order, value):
    kind = order[0]
    if kind in (1, 2, 21):
        return "itself" if value[0] == 1 else "bound"
    if kind in (4, 6, 7, 22):
        return ANSWERS[kind][value[0]]
    if kind == 5:
        return "same" if order[1:] == value else "changed"
    return str(value[0]) if value[0] < 2 else "more"


class Tables:
    """The outcomes, the reasons, and how many sheets each family has."""

    def __init__(self):
        self.table = OutcomeTable(CAN_OCCUR, OUTCOMES, ANSWERS, lambda total: max(5, LEAST_SHARE * total / 4),
                                  lambda total: max(5, LEAST_SHARE * total))
        self.reasons = {0: 0, 10: 0, 11: 0}
        self.families = {}

    def add(self, family, sheet, run):
        self.families[family] = self.families.get(family, 0) + 1
        self.reasons[run.reason] += 1
        for order, answer in zip(split(sheet)[0], split(run.output)[0]):
            row = row_of(order)
            named = answer[0] == 0 and row in ANSWERS
            self.table.add(row, answer[0], [answer_name(order, answer[1:])] if named else ())

    def show(self):
        """Prints the tables; gives the entries that are too rare."""
        poor = self.table.show("Outcomes of the orders")
        print("\nReasons      " + ", ".join("%d: %d" % pair for pair in self.reasons.items()))
        print("Families     " + ", ".join("%s %d" % pair for pair in sorted(self.families.items())))
        return poor + ["reason %d: %d" % pair for pair in self.reasons.items() if pair[1] < 5]


# Running

def groups(options):
    yield "random sheets", sheet_generate.sheets(options.sheets, options.seed)
    yield "fixed sheets", ((name, room, sheet) for name, room, sheet, _ in sheet_cases.SHEETS)


def in_chunks(items):
    chunk = []
    for item in items:
        chunk.append(item)
        if len(chunk) == AT_ONCE:
            yield chunk
            chunk = []
    if chunk:
        yield chunk


class Failed(Exception):
    pass


def check(programs, options, how):
    """The whole comparison; gives the exit status."""
    tables, passed, left = Tables(), 0, Left()
    try:
        for group, sheets in groups(options):
            count = compared = 0
            for chunk in in_chunks(sheets):
                wanted = [reference.run(sheet, room, how) for _, room, sheet in chunk]
                some = set()
                for name, program in programs.items():
                    taken = [at for at in range(len(chunk)) if program.takes(*chunk[at][1:])]
                    some.update(taken)
                    try:
                        found = program.runs([chunk[at][1:] for at in taken])
                    except Differs as difference:
                        print("%s, %s:\n%s" % (name, group, difference.args[0]))
                        raise Failed
                    for at, run in zip(taken, found):
                        family, room, sheet = chunk[at]
                        left.add(run)
                        here = wanted[at]
                        if isinstance(program, Program):
                            whole = len(sheet) <= Sheet.INPUT
                            here = Run(None, None, here.output) if whole else wanted_of(program, room, sheet, how)
                        if not agrees(here, run):
                            where = "%s, %s, sheet %d (%s)" % (name, group, count + at + 1, family)
                            print("%s:\n%s" % (where, described(program, room, sheet, how)))
                            raise Failed
                if group == "random sheets":
                    for (family, _, sheet), run in zip(chunk, wanted):
                        tables.add(family, sheet, run)
                count += len(chunk)
                compared += len(some)
            print("%-14s%9d, and %d that no program takes" % (group, compared, count - compared))
            passed += compared
    except Failed:
        print("%d passed, 1 failed" % passed)
        return 1
    poor = tables.show()
    left.show()
    return verdict(passed, poor if options.sheets >= DEFAULT_SHEETS else [])


def check_slips(options):
    """Every slip must be found by the random sheets. Some slips walk shared terms as trees: the largest are left out."""
    left, count = dict(SLIPS), 0
    families = [each for each in sheet_generate.FAMILIES if each[0] is not sheet_generate.large_doubled]
    for family, room, sheet in sheet_generate.sheets(options.sheets, options.seed, families):
        if not left:
            break
        count += 1
        wanted = reference.run(sheet, room)
        for name, how in list(left.items()):
            if reference.run(sheet, room, how) != wanted:
                print("%-44s sheet %d, %s" % (name, count, family))
                del left[name]
    return slips_verdict(SLIPS, left)


def program_arguments(parser):
    """What is compared with the reference."""
    parser.add_argument("--program", help="the program, with its arguments if it takes any")
    parser.add_argument("--batch", metavar="COMMAND")
    parser.add_argument("--frames", metavar="COMMAND")
    parser.add_argument("--oracle", action="store_true")
    oracle.source_argument(parser)
    parser.add_argument("--self", action="store_true")


def programs_of(parser, options):
    """The programs by name; there is at least one."""
    programs = {}
    if options.oracle:
        try:
            programs["oracle"] = Batch([oracle.build(options.source), "sheets"])
        except oracle.Absent as fault:
            if oracle.left_out("the oracle", fault):
                sys.exit(1)
        except oracle.extract.NotFound as fault:
            sys.exit("oracle: %s" % fault)
    for name, text, kind in (("program", options.program, Program), ("batch", options.batch, Batch), ("frames", options.frames, Frames)):
        if text:
            command = shlex.split(text)
            if not shutil.which(command[0]):
                sys.exit("there is no program %s" % command[0])
            programs[name] = kind(command)
    if options.self:
        programs["reference"] = Plain()
    if not programs:
        parser.error("give --program, --oracle, --batch, --frames or --self")
    return programs


def main():
    parser = argparse.ArgumentParser(description=__doc__, formatter_class=argparse.RawDescriptionHelpFormatter)
    program_arguments(parser)
    parser.add_argument("--sheets", type=int, default=DEFAULT_SHEETS, metavar="N")
    parser.add_argument("--seed", type=int, default=1, metavar="S")
    parser.add_argument("--slip", choices=["all"] + list(SLIPS), metavar="NAME")
    options = parser.parse_args()
    if options.slip == "all":
        return check_slips(options)
    return check(programs_of(parser, options), options, SLIPS[options.slip] if options.slip else Sheet)


if __name__ == "__main__":
    sys.exit(main())
