#!/usr/bin/env python3
"""Small lists of pairs by orders 4 and 22, tried with every assignment of a small universe of terms.

  python3 tests/strict_small.py --self [--group NAME] [--every N]        the reference
  python3 tests/strict_small.py --frames COMMAND [--group NAME]          the program `sheets`
  python3 tests/strict_small.py --program PROGRAM [--group NAME]         the sheet program, a process for each list
  python3 tests/strict_small.py --slip NAME | all [--group NAME]         a reference with a fault: it must be found

What is checked is what document 02 says of solutions, on answers alone: no
reference takes part but where it is what is checked. A list has variables,
some of them number variables, and pairs. Before each pair and at the end the
variables are resolved. An assignment gives a variable-free term to each
variable, and to a number variable a type of its family. By order 22 two terms
are equal where they are the same, by order 4 where they are the same but for
the access of Sets and Maps. An assignment agrees exactly where each variable
has the value of what it resolves to.

  lists of order 22 alone
             a pair is incompatible exactly if no assignment makes all pairs
             equal; if none is, the assignments that do are exactly those that
             agree exactly with what the variables resolve to at the end
  lists of order 4 alone
             the same, with equality and agreement up to access
  any list   if no pair is incompatible, each assignment that agrees exactly
             with the end makes every pair equal by its own order
  each pair of any list, also after incompatible ones
             it is incompatible exactly if no assignment that agrees exactly
             with what the variables resolved to just before it makes it equal
             by its own order

"No assignment" is read in the universe of a group: all terms of its constants
and constructors up to a height. This is enough. What a list binds is always a
part of a posed term, so of a height of at most h, the largest of a posed
term's parts that a variable can be bound to, and a chain of bindings comes to
each of the n variables at most once. So if there is a solution at all, the
one that gives each free variable a constant of its family has terms of a
height of at most n h, made of the constructors that are posed. The universe
goes up to that height, and the constants have a type of each family that is
requested. Tuples are posed against Tuples alone, so that no variable is bound
to one; they are not in the universe.

The groups:
  sets     Sets of both accesses, 2 variables with requests, up to two pairs; three pairs of fewer terms
  maps     Sets and Maps of both accesses, keys and values with variables, 2 variables, up to two pairs
  nested   Sets in Sets, 2 variables, up to two pairs
  marks    References of both accesses and Arrays beside Sets, 2 variables, up to two pairs
  parts    pairs of Tuples, whose parts are met in one order, 2 variables, up to two pairs
  three    3 variables, three pairs

--every takes one list of N.
"""

import itertools
import sys

from comparing import shown
from orders_reference import ARRAY, BUILTIN, INFERENCE, MAP, REFERENCE, SET, TUPLE, written
from sheet_reference import FLOATS, INCOMPATIBLE, INTEGERS
from small_lists import Trial, Wrong
from terms_reference import Reader, framed, number_bytes, split

X, Y, Z = (INFERENCE, 0), (INFERENCE, 1), (INFERENCE, 2)
I8, F64 = (BUILTIN, 0), (BUILTIN, 9)
LOOSE, STRICT = 4, 22
FAMILIES = {None: None, 2: INTEGERS, 9: FLOATS}
CHECKS = 1000


# Terms: a tag, marks, and the terms inside

def ro(term):
    return (SET, 0, term)


def rw(term):
    return (SET, 1, term)


def map_of(access):
    return lambda key, value: (MAP, access, key, value)


def reference_of(access):
    return lambda term: (REFERENCE, access, term)


def array(term):
    return (ARRAY, term)


def both(left, right):
    return (TUPLE, (left, right))


def terms_inside(term):
    return term[1] if term[0] == TUPLE else [part for part in term[1:] if isinstance(part, tuple)]


def put_in(term, values):
    """The term with variables replaced."""
    if term[0] == INFERENCE:
        return values[term[1]]
    if term[0] == TUPLE:
        return (TUPLE, tuple(put_in(part, values) for part in term[1]))
    return (term[0],) + tuple(put_in(part, values) if isinstance(part, tuple) else part for part in term[1:])


def without_access(term):
    if term[0] == TUPLE:
        return (TUPLE, tuple(map(without_access, term[1])))
    inner = tuple(without_access(part) if isinstance(part, tuple) else part for part in term[1:])
    return (term[0], 0) + inner[1:] if term[0] in (SET, MAP) else (term[0],) + inner


def height(term):
    return 0 if term[0] in (INFERENCE, BUILTIN) else 1 + max(map(height, terms_inside(term)))


def nested(tree):
    """A tree of the reader as a term of this file."""
    tag, parts = tree
    if tag == TUPLE:
        return (TUPLE, tuple(nested(part) for part in parts[1:]))
    return (tag,) + tuple(part if isinstance(part, int) else nested(part) for part in parts)


# Universes

class Universe:
    """All assignments of so many variables, and which of them make what equal. A set of assignments is an int with a bit for each."""

    def __init__(self, constants, constructors, levels, variables):
        terms = list(constants)
        for _ in range(levels):
            terms = list(constants) + [build(*parts) for build, arity in constructors for parts in itertools.product(terms, repeat=arity)]
        self.terms = terms
        self.assignments = list(itertools.product(terms, repeat=variables))
        self.values, self.sets = {}, {}

    def valued(self, term, access):
        """The value of a term in each assignment, with or without its access."""
        if (term, access) not in self.values:
            found = [put_in(term, values) for values in self.assignments]
            self.values[term, access] = found if access else list(map(without_access, found))
        return self.values[term, access]

    def kept(self, key, test):
        if key not in self.sets:
            self.sets[key] = sum(1 << at for at, holds in enumerate(test()) if holds)
        return self.sets[key]

    def equal(self, kind, left, right):
        """The assignments that make a pair equal by an order."""
        access = kind == STRICT
        return self.kept((kind, left, right), lambda: (
            one == other for one, other in zip(self.valued(left, access), self.valued(right, access))))

    def agreeing(self, kind, resolved):
        """The assignments that agree with what the variables resolve to, the answer of an order 5; by order 4 up to access."""
        key = "agreeing", kind, resolved
        if key not in self.sets:
            found, fields = -1, Reader(resolved)
            fields.issued = len(self.assignments[0])
            for variable, term in enumerate(nested(fields.term(1))[1]):
                found &= self.equal(kind, (INFERENCE, variable), term)
            self.sets[key] = found
        return self.sets[key]

    def true_to(self, requests):
        """The assignments true to the families."""
        def true(values):
            return all(FAMILIES[fallback] is None or value[0] == BUILTIN and value[1] in FAMILIES[fallback]
                       for fallback, value in zip(requests, values))
        return self.kept(("true", requests), lambda: map(true, self.assignments))


# Groups: a universe, and lists of requests and pairs (kind, left, right)

SETS = ((ro, 1), (rw, 1))
MAPS = ((map_of(0), 2), (map_of(1), 2))
MARKS = ((reference_of(0), 1), (reference_of(1), 1), (array, 1))


def lists(terms, requests, lengths):
    """All lists of so many pairs, each by either order."""
    pairs = [(left, right) for left in terms for right in terms if left != right]
    for length in lengths:
        for row in itertools.product(pairs, repeat=length):
            for kinds in itertools.product((LOOSE, STRICT), repeat=length):
                for each in requests:
                    yield each, tuple((kind,) + pair for kind, pair in zip(kinds, row))


FEW_SETS = [X, Y, ro(Y), rw(Y), rw(X)]
SET_TERMS = [X, Y, I8, F64, ro(X), ro(Y), rw(X), rw(Y), ro(I8), rw(F64)]
MAP_TERMS = [X, Y, I8, ro(X), rw(Y), map_of(0)(X, Y), map_of(1)(X, Y), map_of(0)(Y, Y), map_of(1)(I8, X), map_of(0)(X, I8)]
NESTED_TERMS = [X, Y, I8, ro(ro(X)), ro(rw(X)), rw(rw(Y)), rw(ro(Y)), ro(Y), rw(X), ro(rw(I8))]
MARKED_TERMS = [X, Y, ro(X), rw(Y), array(I8), reference_of(0)(X), reference_of(1)(Y), reference_of(1)(I8), array(Y)]
PARTS = [X, Y, I8, ro(Y), rw(Y), rw(I8)]
THREE_TERMS = [X, Y, Z, ro(Y), rw(Y), rw(Z), ro(I8)]


def group_sets():
    yield from lists(SET_TERMS, ((None, None), (2, None), (9, 2)), (1, 2))
    yield from lists(FEW_SETS, ((None, None),), (3,))


def group_maps():
    return lists(MAP_TERMS, ((None, None),), (1, 2))


def group_nested():
    return lists(NESTED_TERMS, ((None, None),), (1, 2))


def group_marks():
    return lists(MARKED_TERMS, ((None, None), (2, None)), (1, 2))


def group_parts():
    return lists([both(left, right) for left, right in itertools.combinations(PARTS, 2)], ((None, None),), (1, 2))


def group_three():
    return lists(THREE_TERMS, ((None, None, None),), (3,))


# By name: the lists, constants and constructors, the height h of what a variable can be bound to, how many variables, one list of how many.
GROUPS = {
    "sets": (group_sets, (I8, F64), SETS, 1, 2, 4),
    "maps": (group_maps, (I8,), SETS + MAPS, 1, 2, 1),
    "nested": (group_nested, (I8,), SETS, 2, 2, 1),
    "marks": (group_marks, (I8,), SETS + MARKS, 1, 2, 1),
    "parts": (group_parts, (I8,), SETS, 1, 2, 4),
    "three": (group_three, (I8,), SETS, 1, 3, 20),
}


# Runs

def sheet_of(requests, pairs):
    """The variables, each pair with what they resolve to before it, and what they resolve to at the end."""
    out = bytearray()
    for site, fallback in enumerate(requests):
        out += framed(b"\x00" + bytes([site, 0]) if fallback is None else b"\x01" + bytes([site, fallback]))
    shows = framed(b"\x05" + written((TUPLE, (X, Y, Z)[:len(requests)])))
    for kind, left, right in pairs:
        out += shows + framed(bytes([kind]) + number_bytes(CHECKS) + written(left) + written(right))
    return bytes(out + shows)


def check_list(universe, requests, pairs, output):
    """Raises Wrong where answers are not as document 02 says."""
    answers = split(output)[0][len(requests):]
    if len(answers) != 2 * len(pairs) + 1 or any(answer[0] for answer in answers):
        raise Wrong("an order is refused, or not answered")
    resolved = [answer[1:] for answer in answers[::2]]
    clashes = [answer[1] == INCOMPATIBLE for answer in answers[1::2]]
    true = universe.true_to(requests)
    for pair, before, clash in zip(pairs, resolved, clashes):
        if clash == bool(true & universe.agreeing(STRICT, before) & universe.equal(*pair)):
            raise Wrong("a pair is %s, by what was resolved before it" % ("incompatible" if clash else "compatible"))
    end = true & universe.agreeing(STRICT, resolved[-1])
    if not any(clashes) and any(end & ~universe.equal(*pair) for pair in pairs):
        raise Wrong("an assignment agrees with the end and does not make every pair equal")
    if len({pair[0] for pair in pairs}) == 1:
        check_pure(universe, true, pairs, any(clashes), resolved[-1])


def check_pure(universe, true, pairs, clash, end):
    """Both sentences about solutions, of a list of one order alone."""
    solutions = true
    for pair in pairs:
        solutions &= universe.equal(*pair)
    if clash == bool(solutions):
        raise Wrong("a pair is incompatible, and all can be made equal" if clash else "no pair is incompatible, and there is no solution")
    if not clash and solutions != true & universe.agreeing(pairs[0][0], end):
        raise Wrong("the solutions are not the assignments that agree with the end")


def told(requests, pairs, output, why):
    lines = ["%s\nrequests %s" % (why, requests)] + ["  " + shown(order) for order in split(sheet_of(requests, pairs))[0]]
    return "\n".join(lines + ["answers\n  " + "\n  ".join(map(shown, split(output)[0]))])


def check_heights(chunk, levels):
    """What a variable can be bound to is not higher than the universe goes by."""
    for term in {term for _, pairs in chunk for pair in pairs for term in pair[1:]}:
        if any(height(part) > levels for part in (term[1] if term[0] == TUPLE else (term,))):
            sys.exit("%s is too high for its universe" % (term,))


# Slips that change which pairs are compatible, or what is resolved. What a clash leaves bound beside it is not told by solutions: a pair that
# is taken back, or whose parts are met after a clash of access, keeps all that is checked here. sheet_cases.py has it.
FOUND_HERE = (
    "every_pair_compatible", "first_pair_only", "binds_nothing", "no_occurs_check", "number_bound_to_anything", "set_access_counts", "map_access_counts",
    "reference_access_ignored", "families_join_freely", "order_22_is_order_4", "order_22_looks_at_sets_only",
    "order_22_looks_at_maps_only", "mutable_weakens_in_order_22", "read_only_strengthens_in_order_22",
    "order_22_looks_at_variable_free_terms_only", "order_22_looks_at_the_whole_terms_only", "order_22_looks_behind_no_variable",
    "strictness_remembered", "looseness_remembered", "a_binding_of_order_22_meets_strictly", "equality_ignores_access_in_order_22",
    "reference_access_ignored_in_order_22", "no_families_in_order_22", "no_occurs_check_in_order_22", "order_22_binds_nothing")


TRIAL = Trial(GROUPS, Universe, sheet_of, check_heights, check_list, told, FOUND_HERE)


if __name__ == "__main__":
    sys.exit(TRIAL.main(__doc__))
