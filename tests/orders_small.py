#!/usr/bin/env python3
"""Compares a program with the reference on all orders of kinds 9 to 20 with small fields.

  python3 tests/orders_small.py --program PROGRAM [--kind K]
  python3 tests/orders_small.py --oracle [--source DIR] [--kind K]
  python3 tests/orders_small.py --self [--kind K]

Random orders seldom have two terms that differ in one place only. Here every
pair of a list of terms is tried, and for the other orders every choice of
fields out of short lists. Each list has every kind of term, with each of its
parts both known and open.

The protocol, the oracle and what is printed are those of orders_compare.py.
"""

import argparse
import itertools
import random
import sys

from comparing import Differs, compare
from orders_compare import Gathered, command_of, output_of, program_arguments
from orders_reference import (
    ARRAY, BUILTIN, FUNCTION, GENERIC, HOST, INFERENCE, ITER, MAP, NOMINALS, PROJECTION, RANGE, REFERENCE, SELF_TYPE, SET,
    THE_ERROR, THE_UNKNOWN, TRAIT, TUPLE, Orders, nominal_written, number_bytes, terms_written, written)

I8, G, S = (BUILTIN, 0), (GENERIC, 0, 0), (SELF_TYPE, 0)
LEAVES = [THE_UNKNOWN, THE_ERROR, (INFERENCE, 0), (INFERENCE, 1), I8, (BUILTIN, 1), (BUILTIN, 8), (BUILTIN, 10), (HOST, 0),
          (HOST, 1), G, (GENERIC, 0, 1), (GENERIC, 1, 0), S, (SELF_TYPE, 1)]


# Terms

def rows(parts, most):
    return [row for length in range(most + 1) for row in itertools.product(parts, repeat=length)]


def nominals(parts, declarations=(0, 1)):
    """Up to one argument and up to two members."""
    members = [()] + [((name, term),) for name in (0, 1) for term in parts] + [((0, term), (1, term)) for term in parts]
    return [(declaration, arguments, row) for declaration in declarations for arguments in rows(parts, 1) for row in members]


def projections(parts, interfaces):
    return [(PROJECTION, receiver, interface, member, arguments) for receiver in parts for interface in interfaces
            for member in (0, 1) for arguments in rows(parts[:2], 1)]


def around(parts):
    """Every kind of term with these parts, projections left out."""
    found = [(tag, part) for tag in (ITER, ARRAY) for part in parts]
    found += [(tag, mark, part) for tag in (REFERENCE, RANGE, SET) for mark in (0, 1) for part in parts]
    found += [(MAP, access, key, value) for access in (0, 1) for key in parts for value in parts]
    found += [(TUPLE, row) for row in rows(parts, 2)]
    found += [(FUNCTION, row, result) for row in rows(parts, 1) for result in parts]
    return found + [(tag, nominal) for tag in NOMINALS for nominal in nominals(parts)]


FEW = [THE_UNKNOWN, I8]
INTERFACES = nominals([I8], (0,))
PAIRED = (LEAVES + around(FEW) + projections(FEW, nominals(FEW, (0,))[:7])
          + around([(SET, 0, I8), (SET, 1, I8)])[:30] + around([(TUPLE, (THE_UNKNOWN, I8)), (ARRAY, G)])[:30])
OPEN = [THE_UNKNOWN, THE_ERROR, (INFERENCE, 0), I8, G, (GENERIC, 1, 0), S, (SELF_TYPE, 1), (PROJECTION, G, (0, (), ()), 0, ())]
ASKED = LEAVES + around(OPEN) + projections(OPEN, nominals(OPEN, (0,)))
REWRITTEN = LEAVES + around([G, S, I8]) + projections([G, S], nominals([G, S], (0,)))


# Fields

def listed(entries):
    return number_bytes(len(entries)) + b"".join(entries)


def parameters(pairs):
    return listed([number_bytes(owner) + number_bytes(position) for owner, position in pairs])


def substitutions(values):
    """Entries for (0, 0) once or twice and a receiver for owner 0, each or none."""
    entries = [[]] + [[value] for value in values] + [list(pair) for pair in itertools.permutations(values, 2)]
    for own, receiver in itertools.product(entries, [[]] + [[value] for value in values]):
        yield listed([b"\x00\x00" + written(value) for value in own]) + listed([b"\x00" + written(value) for value in receiver])


VALUES = [I8, (TUPLE, (G, S)), (GENERIC, 0, 1)]
PARAMETERS = [parameters(pairs) for pairs in ([], [(0, 0)], [(0, 1)], [(1, 0), (0, 0)], [(0, 0), (0, 0)])]


def pairs_of_terms():
    texts = [written(term) for term in PAIRED]
    return (left + right for left in texts for right in texts)


def reflexive_projections():
    """Those that order 17 takes for given, and ones that differ in a part."""
    interfaces = [(0, (), ()), (0, (), ((0, I8),)), (0, (), ((1, THE_UNKNOWN),)), (0, (I8,), ()), (1, (), ())]
    found = [(PROJECTION, receiver, interface, member, ()) for receiver in FEW for interface in interfaces for member in (0, 1)]
    return found + [(PROJECTION, I8, (0, (), ()), member, (I8,)) for member in (0, 1)]


def satisfied_fields():
    terms = FEW + reflexive_projections()
    members = [()] + [((0, term),) for term in terms] + [((1, term),) for term in terms]
    members += [((0, first), (1, last)) for first in terms for last in terms]
    required = [(0, arguments, row) for arguments in rows([I8], 1) for row in members] + nominals(FEW, (1,))
    for nominal, other in itertools.product(nominals(FEW), required):
        yield nominal_written(nominal) + nominal_written(other) + written(I8)


def family_fields():
    arguments = [terms_written(row) for row in ((), (I8,), ((TUPLE, (G, S)),), (G, (ARRAY, I8)))]
    values = [written(term) for term in REWRITTEN[:60] + REWRITTEN[-30:]]
    for binders, value, outer, row in itertools.product(PARAMETERS, values, list(substitutions(VALUES))[::3], arguments):
        yield binders + value + outer + row


# What a projection with no argument can meet: own members, a Trait's own, a rule, the interface of order 19.
OUTPUTS = [I8, (PROJECTION, I8, (0, (), ()), 0, ()), (ARRAY, (PROJECTION, I8, (0, (), ()), 1, ())), (TUPLE, (THE_UNKNOWN, I8))]
WALKED_INTERFACES = [(0, (), ()), (1, (), ()), (0, (I8,), ())] + [(0, (), ((name, term),)) for name in (0, 1) for term in OUTPUTS]
RECEIVERS = [I8, THE_UNKNOWN] + [(TRAIT, (1, (), ((name, term),))) for name in (0, 1) for term in OUTPUTS] + OUTPUTS[1:2]
ONES = [(PROJECTION, receiver, interface, member, arguments) for receiver in RECEIVERS for interface in WALKED_INTERFACES
        for member in (0, 1) for arguments in ((), (I8,))]
WALKED = ONES + [(ARRAY, one) for one in ONES[::3]] + [(PROJECTION, I8, (0, (), ()), 0, (one,)) for one in ONES[::5]]


def associated_fields():
    for term, interface, owner in itertools.product(WALKED, WALKED_INTERFACES, RECEIVERS[:3]):
        yield written(term) + nominal_written(interface) + written(owner)


def rule(projection, value):
    _, receiver, interface, member, arguments = projection
    return nominal_written(interface) + written(receiver) + number_bytes(member) + terms_written(arguments) + written(value)


def normalised_fields():
    some = ONES[::9]
    for term in WALKED:
        own = term if term[0] == PROJECTION else term[1]
        for value in OUTPUTS + [own]:
            yield listed([rule(own, value)]) + written(term)
            yield listed([rule(own, value), rule(own, I8)]) + written(term)
        for other, value in itertools.product(some, OUTPUTS[:2]):
            yield listed([rule(other, value), rule(own, I8)]) + written(term)


def fields_of(kind):
    asked = [written(term) for term in ASKED]
    rewritten = [written(term) for term in REWRITTEN]
    if kind in (9, 10, 11):
        return pairs_of_terms()
    if kind == 12:
        return (one + term for one in substitutions(VALUES) for term in rewritten)
    if kind == 13:
        return (one + pairs + term for one in list(substitutions(VALUES))[::3] for pairs in PARAMETERS for term in rewritten)
    if kind == 14:
        return (owner + written(new) + term for owner in (b"\x00", b"\x01") for new in VALUES + [S] for term in rewritten)
    if kind == 15:
        return iter(asked)
    if kind == 16:
        return (pairs + term for pairs in PARAMETERS for term in asked)
    return {17: satisfied_fields, 18: family_fields, 19: associated_fields, 20: normalised_fields}[kind]()


# Comparison

def check(command, kinds):
    passed = 0
    for kind in kinds:
        gathered, count = Gathered(Orders.OUTPUT), 0
        orders = (bytes([kind]) + fields for fields in fields_of(kind))
        for data, pairs in gathered.inputs(orders, random.Random(kind)):
            try:
                compare("order", pairs, output_of(command, data, Orders.OUTPUT))
            except Differs as difference:
                print("order %d, after %d that agree:\n%s" % (kind, count + difference.args[1], difference.args[0]))
                print("%d passed, 1 failed" % (passed + count + difference.args[1]))
                return 1
            count += len(pairs)
        print("order %d %9d" % (kind, count))
        passed += count
    print("%d passed, 0 failed" % passed)
    return 0


def main():
    parser = argparse.ArgumentParser(description=__doc__, formatter_class=argparse.RawDescriptionHelpFormatter)
    program_arguments(parser)
    parser.add_argument("--kind", type=int, choices=range(9, 21), metavar="K")
    parser.set_defaults(output=Orders.OUTPUT)
    options = parser.parse_args()
    return check(command_of(parser, options), [options.kind] if options.kind else range(9, 21))


if __name__ == "__main__":
    sys.exit(main())
