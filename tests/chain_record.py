#!/usr/bin/env python3
"""The record of chains, read out by the program `records` after every order of long sheets and worked out afresh.

  python3 tests/chain_record.py check [--sheets N] [--seed S] [--program PROGRAM] [--frames PROGRAM]
  python3 tests/chain_record.py write DIR     write DIR/stdin and DIR/stdout, for rt ci; the program must be there

The program serves the orders of a sheet one by one, and looks at the table
after each. Of every variable it follows the bindings word by word, and
compares where that ends, with the mask of the request there and whether
another chain ends there, with the columns of ends and of tails. The words of
variables that are not issued, and all words that are not in use, must be 0.

A sheet must be served as far as a run serves it: so the orders that the
program tells are compared with those that `sheets`, the program of --frames,
tells. What was seen must not be too little: every family must have chains
with bindings, and tails with the bit.

The families:
  aliases    500 variables, joined rising, falling, in a star, or in pairs and then the pairs in pairs; at the end a type, a Tuple with a variable or
             an Error, else the defaults decide
  numbers    the same with number requests of order 1 and of order 21, before and between the joins
  long       random orders on one session, up to 32,768 bytes: pairs, requests, deferrals, defaults; refused, cancelled and damaged ones among them
  random     N of tests/sheet_generate.py

'N passed' are the orders after which all was as it must be.
"""

import argparse
import os
import struct
import subprocess
import sys

import sheet_generate
from orders_reference import BUILTIN, THE_ERROR, THE_UNKNOWN, TUPLE
from sheet_generate import Source, var
from terms_reference import framed

ROOM = 32768
COUNT = 500
NAMES = ("sheets", "orders", "chains", "bound", "shared", "wrong", "first")


def order(kind, *fields):
    return framed(sheet_generate.order(kind, *fields))


def pair(left, right, checks=1000, kind=4):
    return order(kind, checks, left, right)


def issued(count):
    """Variables that order 1 may request later: their slot is 1."""
    return [order(0, site, 1) for site in range(count)]


# Aliases

def rising(count):
    return [(n, n + 1) for n in range(count - 1)]


def falling(count):
    return rising(count)[::-1]


def star(count):
    return [(0, n) for n in range(1, count)]


def star_turned(count):
    return [(n, 0) for n in range(1, count)]


def halves(count):
    return [(n, n + step) for step in (1, 2, 4, 8, 16, 32, 64, 128, 256) for n in range(0, count - step, 2 * step)]


SHAPES = (rising, falling, star, star_turned, halves)
TYPES = (BUILTIN, 2), (TUPLE, (var(COUNT), (BUILTIN, 10))), THE_ERROR


def ends(rng):
    """What is posed at last: a type, a Tuple with a variable, a recovery term; or the defaults decide."""
    last = [order(3, var(rng.randrange(COUNT))), order(6), order(7), order(5, var(rng.randrange(COUNT)))]
    pick = rng.randrange(4)
    return ([pair(var(rng.randrange(COUNT)), TYPES[pick])] if pick < 3 else []) + last


def aliases(rng):
    for shape in SHAPES:
        yield issued(COUNT + 1) + [pair(var(left), var(right)) for left, right in shape(COUNT)] + ends(rng)
        yield issued(COUNT + 1) + [pair(var(right), var(left), kind=22) for left, right in shape(COUNT)] + ends(rng)


# Numbers

def request(rng, site):
    """Order 1 or 21 for a site; a variable is issued where there is none yet."""
    fallback = rng.choice((0, 2, 2, 2, 7, 8, 9, 9, 10))
    if rng.random() < 0.6:
        return order(1, site, fallback)
    return framed(sheet_generate.range_request(rng, site, fallback))


def numbers(rng):
    for shape in SHAPES:
        made = [request(rng, site) if rng.random() < 0.5 else order(0, site, 1) for site in range(COUNT + 1)]
        for left, right in shape(COUNT):
            made.append(pair(var(left), var(right)))
            if rng.random() < 0.3:
                made.append(request(rng, rng.randrange(COUNT)))
        yield made + ends(rng)


# Long sessions

def term(rng, variables):
    pick = rng.random()
    if pick < 0.75:
        return var(rng.randrange(variables + (rng.random() < 0.05)))
    if pick < 0.9:
        return BUILTIN, rng.randrange(12)
    return rng.choice(((TUPLE, (var(rng.randrange(variables)), var(rng.randrange(variables)))), THE_ERROR, THE_UNKNOWN))


def step(rng, variables):
    """An order of a session; some are damaged or cut, and refused."""
    pick = rng.random()
    if pick < 0.65:
        made = pair(term(rng, variables), term(rng, variables), rng.choice((0, 1, 2, 100)) if rng.random() < 0.1 else 1000, rng.choice((4, 4, 22)))
    elif pick < 0.8:
        made = request(rng, rng.randrange(variables))
    elif pick < 0.86:
        made = order(rng.choice((3, 5)), var(rng.randrange(variables)))
    elif pick < 0.87:
        made = order(rng.choice((6, 7)))
    elif pick < 0.93:
        made = order(2, 1000 + rng.randrange(variables))
    else:
        made = framed(sheet_generate.damaged_order(sheet_generate.order(4, 10, term(rng, variables), term(rng, variables)), rng))
    return made


def long(rng):
    for variables in (40, 200, 460, 512):
        made = issued(variables)
        while sum(map(len, made)) < ROOM - 100:
            made += [step(rng, variables) for _ in range(20)]
        yield made


def cut(orders):
    """As many of the orders as fit into a sheet."""
    sheet = b""
    for one in orders:
        if len(sheet) + len(one) > ROOM:
            break
        sheet += one
    return sheet


RANDOM = ((sheet_generate.session, 0.3), (sheet_generate.chain, 0.2), (sheet_generate.numbers, 0.15), (sheet_generate.ranges, 0.1),
          (sheet_generate.repeats, 0.05), (sheet_generate.damaged, 0.1), (sheet_generate.limits, 0.05), (sheet_generate.mixed, 0.05))


def all_sheets(how_many, seed):
    rng = Source(seed)
    for family in (aliases, numbers, long):
        for orders in family(rng):
            yield family.__name__, cut(orders)
    for _, _, sheet in sheet_generate.sheets(how_many, seed, RANDOM):
        yield "random", sheet


# The programs

def seen(program, sheets):
    data = b"".join(struct.pack("<I", len(sheet)) + sheet for sheet in sheets)
    done = subprocess.run([program], input=data, stdout=subprocess.PIPE, check=True, timeout=600)
    lines = done.stdout.decode().split("\n")
    return {name: int(line[8:]) for name, line in zip(NAMES, lines)}


def answered(frames, sheets):
    """How many orders of the sheets a run answers."""
    data = b"".join(struct.pack("<4I", ROOM, len(sheet), 16384, 0) + sheet for sheet in sheets)
    told = subprocess.run([frames], input=data, stdout=subprocess.PIPE, check=True, timeout=600).stdout
    at = orders = 0
    for _ in sheets:
        orders += int.from_bytes(told[at + 1:at + 5], "little")
        at += 10 + int.from_bytes(told[at + 5:at + 9], "little")
    return orders


def check(program, frames, how_many, seed):
    passed = failed = 0
    by_family = {}
    for family, sheet in all_sheets(how_many, seed):
        by_family.setdefault(family, []).append(sheet)
    for family, sheets in by_family.items():
        found, orders = seen(program, sheets), answered(frames, sheets)
        print("%-9s%6d sheets%9d orders%10d chains%10d bound%9d with the bit" % (
            family, found["sheets"], found["orders"], found["chains"], found["bound"], found["shared"]))
        wrong = found["wrong"]
        if wrong:
            print("%s: after %d orders the record is wrong, first in the sheet\n%s" % (family, wrong, sheets[found["first"]].hex()))
        if found["sheets"] != len(sheets) or found["orders"] != orders:
            print("%s: %d sheets with %d orders, and a run answers %d" % (family, found["sheets"], found["orders"], orders))
            wrong += 1
        if not found["bound"] or not found["shared"]:
            print("%s: no chain has a binding, or no tail the bit" % family)
            wrong += 1
        failed += wrong
        passed += found["orders"] - min(found["orders"], found["wrong"])
    print("%d passed, %d failed" % (passed, failed))
    return failed == 0


def few(seed):
    """For rt ci: one sheet of each sort, and random ones."""
    taken = {}
    for family, sheet in all_sheets(30, seed):
        taken.setdefault(family, []).append(sheet)
    return taken["aliases"][:1] + taken["numbers"][:1] + taken["long"][1:2] + taken["random"]


def write(directory, program):
    sheets = few(7)
    with open(os.path.join(directory, "stdin"), "wb") as file:
        file.write(b"".join(struct.pack("<I", len(sheet)) + sheet for sheet in sheets))
    found = seen(program, sheets)
    if found["wrong"]:
        sys.exit("the record is wrong after %d orders" % found["wrong"])
    with open(os.path.join(directory, "stdout"), "w") as file:
        file.write("".join("%-8s%010d\n" % (name, found[name]) for name in NAMES))


def main():
    parser = argparse.ArgumentParser(description=__doc__, formatter_class=argparse.RawDescriptionHelpFormatter)
    parser.add_argument("what", choices=("check", "write"))
    parser.add_argument("directory", nargs="?")
    parser.add_argument("--program", default="crates/records/out/records")
    parser.add_argument("--frames", default="crates/sheets/out/sheets")
    parser.add_argument("--sheets", type=int, default=500, metavar="N")
    parser.add_argument("--seed", type=int, default=1, metavar="S")
    options = parser.parse_args()
    if options.what == "write":
        write(options.directory, options.program)
        return
    sys.exit(0 if check(options.program, options.frames, options.sheets, options.seed) else 1)


if __name__ == "__main__":
    main()
