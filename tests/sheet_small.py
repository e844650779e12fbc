#!/usr/bin/env python3
"""Compares a program with the reference on all small sessions of some shapes.

  python3 tests/sheet_small.py --program PROGRAM [--group NAME] [--every N]
  python3 tests/sheet_small.py --frames COMMAND [--group NAME] [--every N]
  python3 tests/sheet_small.py --oracle [--source DIR] [--group NAME] [--every N]
  python3 tests/sheet_small.py --self [--group NAME] [--every N]

A small session has a few variables, some of them requested or deferred, and
a few pairs. Many of them stand in one sheet, each with variables of its own,
so that they have nothing to do with each other. Behind its pairs stands what
its variables resolve to; at the end of the sheet both defaults and the same
again. Then the kept nodes are shown: an order 16 with the nodes that are left,
by the reference, and one with a node more.

The groups:
  one      every pair of a list with each kind of term and its parts, 2 variables
  two      every sequence of two pairs of a shorter list, 2 variables
  three    every sequence of three pairs of a short list, 2 variables
  checks   every pair of a list of larger terms, with every k up to 8
  joins    3 variables with every request, every sequence of up to three links or values
  defers   3 variables, every choice of deferrals and requests, up to two links or values
  again    every pair of a list of terms with recovery terms, posed three times, with every k up to 6, 3 variables
  strict   the pairs of group one, posed by order 22
  ranges   3 variables, every choice of ranges and plain requests, up to two links or values, and a second request of one of them
  turns    every sequence of two pairs of a short list with Sets and Maps, posed by orders 22 and 4, 4 and 22, or 22 twice

In the last three the oracle is left at the first order 21 or 22; how many
sheets that are is told. strict_small.py and range_small.py try such pairs with
every assignment.

--every takes one session of N. The other options are those of sheet_compare.py.
"""

import argparse
import functools
import itertools
import sys

import sheet_reference as reference
from orders_reference import (
    ARRAY, BUILTIN, FUNCTION, GENERIC, HOST, INFERENCE, ITER, MAP, NOMINALS, PROJECTION, RANGE, REFERENCE, SELF_TYPE, SET,
    STRUCT, THE_ERROR, THE_UNKNOWN, TUPLE, children, with_children, written)
from comparing import Differs
from sheet_compare import Left, Program, Run, agrees, described, in_chunks, program_arguments, programs_of
from terms_reference import framed, number_bytes

X, Y, Z = (INFERENCE, 0), (INFERENCE, 1), (INFERENCE, 2)
I8, I32, F32, F64, NEVER = ((BUILTIN, code) for code in (0, 2, 8, 9, 10))
AT_ONCE = 60                # sessions in a sheet
ROOM = reference.Sheet.OUTPUT


# Terms

def nominals(parts):
    """Up to one argument and up to two members."""
    rows = [()] + [((name, term),) for name in (0, 1) for term in parts] + [((0, term), (1, X)) for term in parts[:2]]
    return [(declaration, arguments, row) for declaration in (0, 1) for arguments in [()] + [(part,) for part in parts]
            for row in rows]


def around(parts):
    found = [(tag, part) for tag in (ITER, ARRAY) for part in parts]
    found += [(tag, mark, part) for tag in (REFERENCE, RANGE, SET) for mark in (0, 1) for part in parts]
    found += [(MAP, access, key, value) for access in (0, 1) for key in parts for value in parts[:2]]
    found += [(TUPLE, row) for length in range(3) for row in itertools.product(parts, repeat=length)]
    found += [(FUNCTION, row, result) for row in [()] + [(part,) for part in parts] for result in parts]
    found += [(STRUCT, nominal) for nominal in nominals(parts[:3])]
    found += [(tag, nominal) for tag in NOMINALS if tag != STRUCT for nominal in nominals(parts[:1])[:4]]
    return found + [(PROJECTION, part, (0, (), ()), member, ()) for part in parts for member in (0, 1)]


LEAVES = [X, Y, THE_UNKNOWN, THE_ERROR, I8, I32, F32, F64, NEVER, (HOST, 0), (HOST, 1), (GENERIC, 0, 0), (SELF_TYPE, 0)]
ONE = LEAVES + around([X, Y, I32, THE_UNKNOWN]) + [
    (PROJECTION, I8, (0, (X,), ()), 0, ()), (PROJECTION, I8, (0, (), ((0, Y),)), 0, ()), (PROJECTION, I8, (0, (), ()), 0, (X,)),
    (ARRAY, (ARRAY, X)), (ARRAY, (TUPLE, (Y, I32))), (ARRAY, (PROJECTION, THE_ERROR, (0, (), ()), 0, ()))]
TWO = [X, Y, I32, F64, THE_UNKNOWN, (ARRAY, X), (ARRAY, Y), (ARRAY, I32), (TUPLE, (X, Y)), (TUPLE, (Y, Y)), (TUPLE, (Y, I32)),
       (TUPLE, (X, THE_ERROR)), (SET, 0, Y), (SET, 1, X), (PROJECTION, X, (0, (), ()), 0, ()), (STRUCT, (0, (Y,), ((0, X),)))]
THREE = [X, Y, I32, F64, (ARRAY, Y), (TUPLE, (X, Y)), (TUPLE, (Y, THE_UNKNOWN))]
LARGER = [(TUPLE, (X, Y, X)), (TUPLE, (I8, I32, X)), (TUPLE, (Y, (ARRAY, I32), Y)), (TUPLE, ((ARRAY, Y), (ARRAY, X), I8)),
          (TUPLE, ((SET, 0, X), (SET, 1, Y), (SET, 0, I8))), (TUPLE, ((SET, 1, Y), (SET, 1, Y), (SET, 1, I8))),
          (STRUCT, (0, (X, Y), ((0, X), (1, I8)))), (STRUCT, (0, (I8, X), ((0, I32), (1, Y)))),
          (STRUCT, (0, (Y, I32), ((0, Y), (1, Y)))), (FUNCTION, (X, Y), X), (FUNCTION, (I8, I32), Y),
          (FUNCTION, (Y, X), (ARRAY, X)), (MAP, 0, (ARRAY, X), (TUPLE, (Y,))), (MAP, 1, (ARRAY, Y), (TUPLE, (I8,))), (MAP, 1, Y, X),
          X, (ARRAY, (ARRAY, (ARRAY, Y))), (ARRAY, (ARRAY, (ARRAY, I8)))]
RECOVERING = [X, (TUPLE, (X, X)), (TUPLE, (X, Y)), (TUPLE, ((TUPLE, (Y, Z)), (TUPLE, (THE_UNKNOWN, I32)))), (TUPLE, (Y, THE_ERROR)),
              (TUPLE, ((TUPLE, (THE_UNKNOWN, Z)), (TUPLE, (I8, Y)))), (TUPLE, ((TUPLE, (Z, I8)), (TUPLE, (I32, THE_UNKNOWN)))),
              (TUPLE, ((ARRAY, Y), (ARRAY, THE_UNKNOWN))), (TUPLE, (I8, I32)), (TUPLE, ((SET, 0, X), (SET, 1, Y))), (ARRAY, Z), Z, I8]
ACCESSED = [X, Y, I32, (SET, 0, X), (SET, 1, X), (SET, 1, Y), (MAP, 0, X, Y), (MAP, 1, X, Y), (SET, 0, (SET, 1, Y)), (TUPLE, (X, (SET, 0, Y))),
            (TUPLE, ((SET, 1, Y), (SET, 1, I32))), (SET, 1, THE_UNKNOWN)]
# Not requested, plain, and from 0 to 200 with a fallback that is not admitted, from -1 to 100, from 2^63 on.
RANGES = (None, 2, 9, bytes.fromhex("00 00 00 00 00 00 c8 01"), bytes.fromhex("04 01 00 01 00 00 64"),
          bytes.fromhex("02 00 80 80 80 80 08 00 00 80 80 80 80 08 00"))
LINKS = [(a, b) for a in (X, Y, Z) for b in (X, Y, Z) if a != b]
VALUES = [(a, value) for a in (X, Y, Z) for value in (I8, F32)]


# Sessions: requests, deferrals before the pairs, pairs (k, left, right), or (k, left, right, 22). A request is a fallback, or the bytes of an
# order 21 behind its site. A pair may be a request of one of the variables: (variable, request).

def pairs(terms):
    return [(50, left, right) for left in terms for right in terms]


def sequences(items, most):
    return itertools.chain.from_iterable(itertools.product(items, repeat=length) for length in range(most + 1))


def group_one():
    for requests in ((None, None), (2, None), (9, 2)):
        for pair in pairs(ONE):
            yield requests, (), (pair,)


def group_two():
    for requests in ((None, None), (2, None), (None, 9)):
        for row in itertools.product(pairs(TWO), repeat=2):
            yield requests, (), row


def group_three():
    for requests in ((None, None), (2, None)):
        for row in itertools.product(pairs(THREE), repeat=3):
            yield requests, (), row


def group_checks():
    for requests in ((None, None), (None, 2)):
        for checks in range(9):
            for left, right in itertools.product(LARGER, repeat=2):
                yield requests, (), ((checks, left, right),)


def group_joins():
    for requests in itertools.product((None, 2, 3, 9), repeat=3):
        for row in sequences([(9,) + pair for pair in LINKS + VALUES], 3):
            yield requests, (), row


def group_defers():
    for deferred in itertools.product((False, True), repeat=3):
        for requests in itertools.product((None, 2), repeat=3):
            for row in sequences([(9,) + pair for pair in LINKS + VALUES[::2]], 2):
                yield requests, tuple(at for at in range(3) if deferred[at]), row


def group_again():
    for requests in ((None, None, None), (None, 2, None), (2, None, 9)):
        for checks in (0, 1, 2, 3, 4, 5, 6, 50):
            for left, right in itertools.product(RECOVERING, repeat=2):
                yield requests, (), ((checks, left, right),) * 3


def group_strict():
    for requests in ((None, None), (2, None)):
        for pair in pairs(ONE):
            yield requests, (), (pair + (22,),)


def group_ranges():
    links = [(9,) + pair for pair in LINKS + VALUES]
    for requests in itertools.product(RANGES, repeat=3):
        for row in sequences(links, 2):
            yield requests, (), row
    for requests in itertools.product(RANGES[1:], repeat=2):
        for first, last in itertools.product(links[:2] + links[6:10], repeat=2):
            for variable, again in itertools.product((0, 1), RANGES[1:]):
                yield requests + (2,), (), (first, (variable, again), last)


def group_turns():
    for requests in ((None, None), (2, None)):
        for kinds in ((22, 4), (4, 22), (22, 22)):
            for row in itertools.product(pairs(ACCESSED), repeat=2):
                yield requests, (), tuple(pair + (kind,) for pair, kind in zip(row, kinds))


GROUPS = {"one": group_one, "two": group_two, "three": group_three, "checks": group_checks, "joins": group_joins,
          "defers": group_defers, "again": group_again, "strict": group_strict, "ranges": group_ranges, "turns": group_turns}


# Sheets

def shifted(term, base):
    if term[0] == INFERENCE:
        return (INFERENCE, term[1] + base)
    return with_children(term, [shifted(part, base) for part in children(term)])


@functools.lru_cache(maxsize=200000)
def text(term, base):
    return written(shifted(term, base))


def shown_at(base, how_many):
    return framed(b"\x05" + text((TUPLE, ((INFERENCE, 0), (INFERENCE, 1), (INFERENCE, 2))[:how_many]), base))


def nodes_in(term):
    return 1 + sum(map(nodes_in, children(term)))


nodes_of = functools.lru_cache(maxsize=10000)(nodes_in)


def requested(site, request):
    """A variable, or one of a number place."""
    if request is None:
        return framed(b"\x00" + site + b"\x00")
    return framed(b"\x15" + site + request if isinstance(request, bytes) else b"\x01" + site + bytes([request]))


def sheet_of(sessions, defaults):
    out, base, shows = bytearray(), 0, []
    for requests, deferred, row in sessions:
        for at, fallback in enumerate(requests):
            out += requested(number_bytes(base + at), fallback)
        for at in deferred:
            out += framed(b"\x03" + text(X, base + at))
        for each in row:
            if len(each) == 2:
                out += requested(number_bytes(base + each[0]), each[1])
                continue
            checks, left, right, *kind = each
            out += framed(bytes(kind or (4,)) + number_bytes(checks) + text(left, base) + text(right, base))
        shows.append(shown_at(base, len(requests)))
        out += shows[-1]
        base += len(requests)
    out += framed(b"\x08")
    for kind in defaults:
        out += framed(bytes([kind])) + framed(b"\x08") + b"".join(shows)
    return bytes(out)


def sheets(name, every):
    """Pairs: how many sessions, the sheet."""
    packed, nodes, turn = [], 0, 0
    for session in itertools.islice(GROUPS[name](), 0, None, every):
        more = sum(nodes_of(pair[1]) + nodes_of(pair[2]) for pair in session[2] if len(pair) > 2)
        if len(packed) == AT_ONCE or nodes + more > 2040:
            yield len(packed), sheet_of(packed, ((6, 7), (7, 6))[turn % 2])
            packed, nodes, turn = [], 0, turn + 1
        packed.append(session)
        nodes += more
    yield len(packed), sheet_of(packed, (6, 7))


def kept_shown(sheet):
    """The sheet with two orders 16 behind it that show how many nodes are kept, and its run."""
    session = reference.Sheet()
    run = session.run(sheet, ROOM)
    space = reference.Sheet.NODES - session.kept
    more = b"".join(framed(b"\x10\x00" + written((TUPLE, (THE_UNKNOWN,) * (nodes - 1)))) for nodes in (space, space + 1))
    last = session.run(more, ROOM - len(run.output))
    return sheet + more, Run(max(run.reason, last.reason), run.orders + last.orders, run.output + last.output)


def check(programs, names, every):
    passed, left = 0, Left()
    for name in names:
        sessions = count = 0
        for chunk in in_chunks(sheets(name, every)):
            shown = [kept_shown(sheet) for _, sheet in chunk]
            chunk = [(many, sheet) for (many, _), (sheet, _) in zip(chunk, shown)]
            wanted = [run for _, run in shown]
            if any(run.reason != 0 for run in wanted):
                sys.exit("a sheet of group %s does not run to its end" % name)
            for who, program in programs.items():
                try:
                    found = program.runs([(ROOM, sheet) for _, sheet in chunk])
                except Differs as difference:
                    sys.exit("%s: %s" % (who, difference.args[0]))
                for (_, sheet), run, given in zip(chunk, wanted, found):
                    left.add(given)
                    if not agrees(Run(None, None, run.output) if isinstance(program, Program) else run, given):
                        print("%s, group %s:\n%s" % (who, name, described(program, ROOM, sheet)))
                        print("%d passed, 1 failed" % passed)
                        return 1
            sessions += sum(many for many, _ in chunk)
            count += len(chunk)
        print("%-10s%9d sessions in %d sheets" % (name, sessions, count), flush=True)
        passed += sessions
    left.show()
    print("%d passed, 0 failed" % passed)
    return 0


def main():
    parser = argparse.ArgumentParser(description=__doc__, formatter_class=argparse.RawDescriptionHelpFormatter)
    program_arguments(parser)
    parser.add_argument("--group", choices=list(GROUPS))
    parser.add_argument("--every", type=int, default=1, metavar="N")
    options = parser.parse_args()
    return check(programs_of(parser, options), [options.group] if options.group else list(GROUPS), options.every)


if __name__ == "__main__":
    sys.exit(main())
