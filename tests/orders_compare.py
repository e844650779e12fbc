#!/usr/bin/env python3
"""Compares a program with the reference on random orders of kinds 9 to 20.

  python3 tests/orders_compare.py --program PROGRAM [--orders N] [--seed S] [--output BYTES]
  python3 tests/orders_compare.py --oracle          the oracle, which is built first, in the place of the program
  python3 tests/orders_compare.py --self            the plain reference in the place of the program
  python3 tests/orders_compare.py --slip NAME ...   with a reference that has one fault: must fail
  python3 tests/orders_compare.py --slip all ...    with each of them: passes if every one fails

The program reads orders with their lengths from standard input, at most
32,768 bytes, and writes answers with their lengths, at most BYTES (32,768).
It stops at a length that is faulty or beyond the input, and before an answer
that does not fit whole.

Every byte of every answer is compared. The first order that differs is
printed in hexadecimal, and the exit status is 1. The random orders are the
same for the same seed. The tables show the outcomes of the random orders and
what the unrefused ones answer; an entry that can occur but has a share below
0.3% of its row is a failure in a run of 20,000 orders or more.

The oracle answers by Kagari's own functions. They are taken out of its
sources when it is built: the types of types.rs with their methods that the
orders ask for, and normalize of typeck/associated.rs. Ids, builtins,
accesses, range kinds and bounds are stand-ins; reading, writing and refusals
are written apart from the reference. tests/oracle/build.py says more. The
sources are looked for in ../shared/docs/src beside the repository, or in DIR
of --source; without them the comparison stops with status 1.
"""

import argparse
import random
import shlex
import shutil
import sys

import orders_cases
import orders_reference as reference
from comparing import Differs, OutcomeTable, compare, program_output, slips_verdict, verdict
from oracle import build as oracle
from orders_generate import KINDS, MarkedFields, random_orders
from orders_reference import ERROR, Orders, children, framed, number_bytes, written
from orders_slips import RUN_SLIPS, SLIPS
from terms_generate import ENDS
from terms_reference import split

DEFAULT_ORDERS = 20000
LEAST_SHARE = 0.003
OUTCOMES = (0, 1, 2, 3, 4, 5, 7, 9)
CAN_OCCUR = {kind: OUTCOMES if kind >= 19 else OUTCOMES[:-1] for kind in KINDS}
CAN_OCCUR.update({"other kind": (2,), "empty": (1,)})

ANSWERS = {
    9: ("no", "yes"), 10: ("no", "yes"), 11: ("same", "changed"), 12: ("same", "changed"), 13: ("same", "changed"),
    14: ("same", "changed"),
    15: ("never", "integer", "concrete", "unresolved", "unknown", "self type", "projection"),
    16: ("no", "yes"), 17: ("00", "01", "11"), 18: ("none", "same", "changed"), 19: ("same", "changed", "new Error"),
    20: ("same", "changed", "new Error"),
}


# Inputs

class Gathered:
    """Orders gathered to inputs with their answers."""

    def __init__(self, room):
        self.room = room
        self.too_long = 0

    def inputs(self, orders, rng):
        """Pairs of an input and its answered orders; the next order may stand after them, if its answer does not fit."""
        most = Orders.INPUT - max(map(len, ENDS))
        data, pairs, used = bytearray(), [], 0
        for order in orders:
            whole, reply = framed(order), framed(reference.answer(order))
            if len(whole) > most or len(reply) > self.room:
                self.too_long += 1
                continue
            if used + len(reply) > self.room or len(data) + len(whole) > most:
                fits = len(data) + len(whole) <= most
                yield bytes(data) + (whole if fits else rng.choice(ENDS)), pairs
                data, pairs, used = bytearray(), [], 0
            data += whole
            used += len(reply)
            pairs.append((order, reply))
        yield bytes(data) + rng.choice(ENDS), pairs


def fixed_inputs(room):
    """Whole inputs, for how a run of orders ends."""
    small = b"\x0f\x02"                      # order 15 of Unknown: 2 bytes, answered with 8

    def filler(size):
        """Orders 16 of a Tuple, so long that size bytes are filled; each answer takes 3 bytes."""
        out = b""
        while size:
            step = size if size < 1000 or size == 1000 else 900
            length = step - (1 if step < 129 else 2)
            head = b"\x10\x00\x05"
            count = length - len(head) - 1
            if count >= 128:
                count -= 1
            out += framed(head + number_bytes(count) + b"\x02" * count)
            size -= step
        return out

    def answered(size):
        """Orders 11 of a Tuple and Unknown, with answers of size bytes in all."""
        out = b""
        while size:
            step = size if size <= 1000 else 900
            count = step - (4 if step < 129 else 6)
            out += framed(b"\x0b\x05" + number_bytes(count) + b"\x02" * count + b"\x02")
            size -= step
        return out

    yield "an empty input", b""
    for more in range(-2, 3):
        yield "32,768 bytes and %d" % more, filler(32768 - 600 + more) + filler(600) + framed(small)
        yield "32,768 bytes with the last order, and %d" % more, filler(32768 - 3 + more) + framed(small)
    for more in range(-2, 3):
        wide = [tuple_answer(9000)] * (room // 9500)
        data = b"".join(framed(order) for order in wide)
        left = room - sum(len(framed(reference.answer(order))) for order in wide)
        yield "an output of %d bytes and %d" % (room, more), data + answered(left + more - 9) + framed(small) + framed(b"")
        yield "an output of %d bytes, %d, and no more" % (room, more), data + answered(left + more)
    for end in ENDS:
        yield "an end of %d bytes" % len(end), framed(small) + end
        yield "an end of %d bytes alone" % len(end), end


def tuple_answer(size):
    """An order 12 with few bytes and an answer of about so many."""
    width = 90
    return (b"\x0c\x01\x00\x00\x05" + number_bytes(width) + b"\x02" * width + b"\x00\x05"
            + number_bytes(size // (width + 2)) + b"\x11\x00\x00" * (size // (width + 2)))


# Comparison

def output_of(command, data, room):
    """The program's output, or without a program that of the plain reference."""
    return reference.run(data, room=room) if command is None else program_output(command, data)


def slipped(pairs, how):
    return [(order, framed(reference.answer(order, how))) for order, _ in pairs]


# Tables

def row_of(order):
    return "empty" if not order else order[0] if order[0] in KINDS else "other kind"


def errors_in(term):
    return (term[0] == ERROR) + sum(map(errors_in, children(term)))


def answers_of(order, value):
    """What the table of answers counts."""
    kind = order[0]
    if kind in (9, 10, 16):
        return [("no", "yes")[value[0]]]
    if kind == 15:
        return [name for name, bit in zip(ANSWERS[15], value) if bit]
    if kind == 17:
        return [value.hex()[1::2]]
    if kind == 18 and value == b"\x00":
        return ["none"]
    fields = MarkedFields(order).read()
    source = fields[{11: 0, 12: 1, 13: 2, 14: 2, 18: 1, 19: 0, 20: 1}[kind]]
    value = value[1:] if kind == 18 else value
    found = ["same" if written(source) == value else "changed"]
    if kind >= 19 and errors_in(MarkedFields(value).term(-1000)) > errors_in(source):
        found.append("new Error")
    return found


def table_of():
    def least(total):
        return max(1, LEAST_SHARE * total)
    return OutcomeTable(CAN_OCCUR, OUTCOMES, ANSWERS, least, least)


def add(table, order, reply):
    value = split(reply)[0][0]
    table.add(row_of(order), value[0], answers_of(order, value[1:]) if value[0] == 0 else ())


# Running

def groups(options):
    gathered = Gathered(options.output)
    rng = random.Random(options.seed)
    yield "random orders", gathered.inputs(random_orders(options.orders, options.seed), rng)
    yield "fixed cases", gathered.inputs((order for _, order, _ in orders_cases.CASES + orders_cases.MORE), rng)
    yield "fixed inputs", ((data, reference.answers(data, room=options.output)) for _, data in fixed_inputs(options.output))
    if gathered.too_long:
        print("%d orders left out: they or their answers do not fit" % gathered.too_long)


def check(command, options, how):
    orders_cases.check_stated()
    table, passed = table_of(), 0
    for group, inputs in groups(options):
        count = 0
        for data, pairs in inputs:
            try:
                output = output_of(command, data, options.output)
                compare("order", pairs if how is Orders else slipped(pairs, how), output)
            except Differs as difference:
                text, agreed = difference.args
                print("%s, after %d that agree:\n%s" % (group, count + agreed, text))
                print("%d passed, 1 failed" % (passed + count + agreed))
                return 1
            count += len(pairs)
            if group == "random orders":
                for pair in pairs:
                    add(table, *pair)
        print("%-14s%9d" % (group, count))
        passed += count
    poor = table.show("Outcomes of the random orders")
    return verdict(passed, poor if options.orders >= DEFAULT_ORDERS else [])


def check_slips(command, options):
    """Every slip must be found by random orders, those about runs by whole inputs."""
    left = {name: how for name, how in SLIPS.items() if name not in RUN_SLIPS}
    runs = {name: SLIPS[name] for name in RUN_SLIPS}
    for group, inputs in groups(options):
        if group == "fixed cases":
            continue
        count = 0
        for data, pairs in inputs:
            here = left if group == "random orders" else runs
            if not here:
                break
            try:
                output = output_of(command, data, options.output)
                compare("order", pairs, output)
            except Differs as difference:
                print("the reference without a slip differs too:\n%s" % difference.args[0])
                print("0 passed, 1 failed")
                return 1
            for name, how in list(here.items()):
                if group == "fixed inputs":
                    differs = 0 if reference.run(data, how) != output else None
                else:
                    differs = next((at for at, (order, reply) in enumerate(pairs)
                                    if framed(reference.answer(order, how)) != reply), None)
                if differs is not None:
                    print("%-44s %s, %d" % (name, group, count + differs + 1))
                    del here[name]
            count += len(pairs)
    left.update(runs)
    return slips_verdict(SLIPS, left)


def program_arguments(parser):
    """What is compared with the reference."""
    parser.add_argument("--program", help="the program, with its arguments if it takes any")
    parser.add_argument("--oracle", action="store_true")
    oracle.source_argument(parser)
    parser.add_argument("--self", action="store_true")


def command_of(parser, options):
    """The command that answers, or None for the plain reference."""
    if bool(options.program) + options.oracle + options.self != 1:
        parser.error("give one of --program, --oracle and --self")
    if options.oracle:
        try:
            return [oracle.build(options.source), str(options.output)]
        except oracle.extract.NotFound as fault:
            sys.exit("oracle: %s" % fault)
    command = shlex.split(options.program) if options.program else None
    if command and not shutil.which(command[0]):
        sys.exit("there is no program %s" % command[0])
    return command


def main():
    parser = argparse.ArgumentParser(description=__doc__, formatter_class=argparse.RawDescriptionHelpFormatter)
    program_arguments(parser)
    parser.add_argument("--orders", type=int, default=DEFAULT_ORDERS, metavar="N")
    parser.add_argument("--seed", type=int, default=1, metavar="S")
    parser.add_argument("--output", type=int, default=Orders.OUTPUT, metavar="BYTES")
    parser.add_argument("--slip", choices=["all"] + list(SLIPS), metavar="NAME")
    options = parser.parse_args()
    command = command_of(parser, options)
    if options.slip == "all":
        return check_slips(command, options)
    return check(command, options, SLIPS[options.slip] if options.slip else Orders)


if __name__ == "__main__":
    sys.exit(main())
