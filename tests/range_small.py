#!/usr/bin/env python3
"""Small lists of pairs between variables with ranges, tried with every assignment of a small universe of terms.

  python3 tests/range_small.py --self [--group NAME] [--every N]        the reference
  python3 tests/range_small.py --frames COMMAND [--group NAME]          the program `sheets`
  python3 tests/range_small.py --program PROGRAM [--group NAME]         the sheet program, a process for each list
  python3 tests/range_small.py --slip NAME | all [--group NAME]         a reference with a fault: it must be found

What is checked is what document 02 says of solutions, on answers alone: no
reference takes part but where it is what is checked. A list has variables,
some requested by order 1 and some by order 21, and pairs by orders 4 and 22.
Before each pair, at the end and after numeric defaults the variables are
resolved. The family of a range is the set of integer types that hold both
bounds, whatever its fallback; that of a plain request is F32 and F64 for the
fallback F64, and else the eight integers.

  all that strict_small.py checks, with these families
  wish 9, of lists without an incompatible pair
             an assignment true to the families agrees exactly with what the
             variables resolve to after order 6; each such one makes every pair
             equal by its own order; and every number variable resolves to a
             type that its own request admits

strict_small.py says why a universe of terms up to a height is enough. Here
its constants have a type of every family that requests and joins leave.

The groups:
  joins    3 variables with every choice of requests, up to two pairs of variables and types
  chains   3 variables with every choice of requests, three pairs of variables in every turn, then a type
  parts    2 variables, pairs of Tuples, whose parts are met in one order, up to two pairs
  terms    2 variables, Sets of both accesses, up to two pairs, each by either order

--every takes one list of N.
"""

import itertools
import sys

import strict_small
from orders_reference import BUILTIN, TUPLE, written
from small_lists import Trial, Wrong
from strict_small import LOOSE, STRICT, Universe, X, Y, Z, both, check_heights, lists, nested, ro, rw, shown
from terms_reference import Reader, framed, number_bytes, split

I8, I16, I32, I64, U8, U16, U32, U64, F32, F64 = ((BUILTIN, code) for code in range(10))
NUMBERS = (I8, I16, I32, I64, U8, U16, U32, U64, F32, F64)
INTEGERS, FLOATS = frozenset(range(8)), frozenset((8, 9))


# Requests: None, the fallback of an order 1, or fallback, low and high of an order 21

def holds(code, value):
    bits = 8 << code % 4
    return -(1 << bits - 1) <= value < 1 << bits - 1 if code < 4 else 0 <= value < 1 << bits


def family(request):
    """The types of a request; None for a variable that is not requested."""
    if isinstance(request, tuple):
        return frozenset(code for code in INTEGERS if all(holds(code, value) for value in request[1:]))
    return None if request is None else FLOATS if request == 9 else INTEGERS


def bound(value):
    return bytes([value < 0]) + number_bytes(abs(value) >> 32) + number_bytes(abs(value) % (1 << 32))


def requested(site, request):
    if request is None:
        return bytes([0, site, 0])
    if isinstance(request, tuple):
        fallback, low, high = request
        return bytes([21, site, fallback]) + bound(low) + bound(high)
    return bytes([1, site, request])


class Ranged(Universe):
    def true_to(self, requests):
        families = tuple(map(family, requests))

        def true(values):
            return all(types is None or value[0] == BUILTIN and value[1] in types for types, value in zip(families, values))
        return self.kept(("true", families), lambda: map(true, self.assignments))


# Groups: a universe, and lists of requests and pairs (kind, left, right)

SIGNED, LARGE = (4, -1, 100), (2, 1 << 63, 1 << 63)
REQUESTS = (None, 2, 4, 9, (4, 0, 200), (0, 0, 200), SIGNED, (9, 0, 5), LARGE, (0, -5, 1 << 31))
FEW = (None, 4, 9, (0, 0, 200), SIGNED, LARGE)
LINKS = [(a, b) for a in (X, Y, Z) for b in (X, Y, Z) if a != b]
VALUES = [(a, value) for a in (X, Y, Z) for value in (I8, I16, U8, U64, F64)]


def rows(requests, variables, pairs_of):
    for at, (each, row) in enumerate(itertools.product(itertools.product(requests, repeat=variables), pairs_of)):
        yield each, tuple((STRICT if at % 3 else LOOSE,) + pair for pair in row)


def group_joins():
    pairs = LINKS + VALUES
    return rows(REQUESTS, 3, [row for length in (1, 2) for row in itertools.product(pairs, repeat=length)])


def group_chains():
    pairs = [row + last for row in itertools.product(LINKS, repeat=2) for last in [()] + [(value,) for value in VALUES]]
    return rows(REQUESTS, 3, pairs + list(itertools.product(LINKS, repeat=3)))


def group_parts():
    parts = [both(left, right) for left, right in itertools.permutations((X, Y, I8, U8, F64), 2)]
    return lists(parts, list(itertools.product(FEW, repeat=2)), (1, 2))


def group_terms():
    terms = [X, Y, I8, U8, ro(X), ro(Y), rw(Y), rw(U8)]
    return lists(terms, ((SIGNED, None), ((0, 0, 200), SIGNED), (None, (9, 0, 5)), (LARGE, 4)), (1, 2))


# By name: the lists, constants and constructors, the height of what a variable can be bound to, how many variables, one list of how many.
GROUPS = {
    "joins": (group_joins, NUMBERS, (), 0, 3, 29),
    "chains": (group_chains, NUMBERS, (), 0, 3, 61),
    "parts": (group_parts, NUMBERS, (), 0, 2, 1203),
    "terms": (group_terms, (I8, I32, U8, U64, F64), strict_small.SETS, 1, 2, 5),
}


# Runs

def sheet_of(requests, pairs):
    """The variables, each pair with what they resolve to before it, and what they resolve to at the end and after defaults."""
    out = bytearray()
    for site, request in enumerate(requests):
        out += framed(requested(site, request))
    shows = framed(b"\x05" + written((TUPLE, (X, Y, Z)[:len(requests)])))
    for kind, left, right in pairs:
        out += shows + framed(bytes([kind]) + number_bytes(strict_small.CHECKS) + written(left) + written(right))
    return bytes(out + shows + framed(b"\x06") + shows)


def check_list(universe, requests, pairs, output):
    """Raises Wrong where answers are not as document 02 says."""
    answers = split(output)[0]
    if len(answers) != len(requests) + 2 * len(pairs) + 3:
        raise Wrong("an order is not answered")
    before = b"".join(map(framed, answers[:-2]))
    strict_small.check_list(universe, requests, pairs, before)
    clashes = [answer[1] == strict_small.INCOMPATIBLE for answer in answers[len(requests) + 1:-3:2]]
    if not any(clashes):
        check_filled(universe, requests, pairs, answers[-3][1:], answers[-1])


def check_filled(universe, requests, pairs, end, answer):
    """Wish 9, of a list without an incompatible pair: end is what the variables resolved to before the defaults."""
    if answer[0]:
        raise Wrong("what the variables resolve to after the defaults is refused")
    true, filled = universe.true_to(requests), universe.agreeing(STRICT, answer[1:])
    left = true & filled
    if not left:
        raise Wrong("no assignment is left after the defaults")
    if any(left & ~universe.equal(*pair) for pair in pairs):
        raise Wrong("an assignment agrees with the defaults and does not make every pair equal")
    if left & ~universe.agreeing(STRICT, end):
        raise Wrong("an assignment agrees with the defaults and not with what was resolved before")
    fields = Reader(answer[1:])
    fields.issued = len(requests)
    for request, value in zip(requests, nested(fields.term(1))[1]):
        if request is not None and (value[0] != BUILTIN or value[1] not in family(request)):
            raise Wrong("a number variable has a type that its own request does not admit, or none")


def told(requests, pairs, output, why):
    lines = ["%s\nrequests %s" % (why, requests)] + ["  " + shown(order) for order in split(sheet_of(requests, pairs))[0]]
    return "\n".join(lines + ["answers\n  " + "\n  ".join(map(shown, split(output)[0]))])


# Slips that change which pairs are compatible, what is resolved, or whether a default is admitted. Which of several admitted types a default
# takes, and what is refused, is not told by solutions: sheet_cases.py has it.
FOUND_HERE = (
    "every_pair_compatible", "first_pair_only", "binds_nothing", "number_bound_to_anything", "family_lost_in_a_join", "families_join_freely",
    "order_22_is_order_4", "order_21_is_order_1", "range_holds_the_low_bound_only", "range_holds_the_high_bound_only", "range_holds_one_of_the_bounds",
    "range_admits_f64", "range_admits_every_integer", "range_takes_signs_only", "range_of_signed_types_only_if_negative",
    "range_admits_the_smallest_type_only", "bounds_of_32_bits", "low_half_first", "bounds_without_a_sign", "range_of_a_float_fallback_is_plain",
    "range_holds_its_fallback", "range_forgotten_at_a_join", "range_of_the_free_one_stays", "range_of_the_bound_one_is_copied",
    "join_with_a_plain_one_is_plain", "join_with_a_free_one_is_plain", "join_leaves_what_one_admits", "empty_joins_allowed",
    "ranges_must_be_equal_to_join", "ranges_join_inwards_only", "range_joins_a_float", "default_by_its_own_request_alone",
    "default_keeps_its_fallback", "ranges_not_held_to_in_order_22", "default_i32_only")


TRIAL = Trial(GROUPS, Ranged, sheet_of, check_heights, check_list, told, FOUND_HERE)


if __name__ == "__main__":
    sys.exit(TRIAL.main(__doc__))
