"""The sheets that bench/sheets.py times: classes, pairs by order 4 and by order 22, requests by order 1 and by order 21, hazards and growing shapes.

A sheet is bytes; a class is a list of sheets. They are the same in every run.
"""

import collections
import os
import random
import sys

ROOT = os.path.dirname(os.path.dirname(os.path.abspath(__file__)))
sys.path.insert(0, os.path.join(ROOT, "tests"))

import chains  # noqa: E402
from orders import LIMITS, inserted, leaves, unmatched  # noqa: E402
from orders_cases import (F64, I32, I64, RO, RW, U, arr, enum, fun, gen, host, inf, iter_, map_, nom, num, params, proj,  # noqa: E402
                          range_, ref, rule, self_, seq, set_, struct, subst, tup)
from sheet_reference import run  # noqa: E402
from terms_reference import framed, split  # noqa: E402
from chains import order, pair, variables  # noqa: E402

ROOM = 32768
MOST_ROOM = 16777216

# A class has sheets; rust says whether the Rust is asked too. A growing shape makes a sheet of a size; the Rust is asked up to `rust`.
Class = collections.namedtuple("Class", "name sheets room rust", defaults=[ROOM, True])
Growth = collections.namedtuple("Growth", "name unit sizes make rust room", defaults=[None, ROOM])
# Sheets with the same answers: with order 4 and with order 22, or with order 1 and with order 21.
Beside = collections.namedtuple("Beside", "name first second")


def resolve(term):
    return order("05" + term)


def revision():
    return order("08")


def defaults():
    return [order("06"), order("07")]


def sheet(orders):
    return b"".join(orders)


# Types as scripts have them

def plain_leaf(rng):
    return rng.choice((I32, I32, F64, host(300), struct(201)))


def generic_leaf(rng):
    return gen(7, rng.randrange(3)) if rng.random() < 0.4 else plain_leaf(rng)


def self_leaf(rng):
    return self_(7) if rng.random() < 0.4 else plain_leaf(rng)


def projected_leaf(rng):
    return proj(struct(201), nom(7), rng.randrange(4)) if rng.random() < 0.25 else plain_leaf(rng)


def holes_of(leaf, share):
    """The same leaves, some of them Unknown."""
    def make(rng):
        chosen, kept = leaf(rng), rng.random() >= share
        return chosen if kept else U
    return make


def shares(rng, nodes, how_many):
    cuts = sorted(rng.sample(range(1, nodes), how_many - 1))
    return [b - a for a, b in zip([0] + cuts, cuts + [nodes])]


def typed(rng, nodes, leaf=plain_leaf):
    """A type of about so many nodes."""
    if nodes < 2:
        return leaf(rng)
    how_many = min(nodes - 1, rng.choice((1, 2, 2, 3, 4)))
    parts = [typed(rng, share, leaf) for share in shares(rng, nodes - 1, how_many)] if nodes > 2 else [leaf(rng)]
    if how_many == 1:
        return rng.choice((arr, iter_, lambda t: ref(0, t), lambda t: set_(RO, t), lambda t: range_(1, t)))(parts[0])
    if how_many == 2 and rng.random() < 0.4:
        return map_(RO, *parts)
    return rng.choice((lambda: tup(*parts), lambda: fun(parts[:-1], parts[-1]), lambda: struct(202, parts),
                       lambda: enum(203, parts[:1], list(enumerate(parts[1:], 5)))))()


# A typical script: a body of statements as a checker poses it

class Script:
    def __init__(self, seed):
        self.rng = random.Random(seed)
        self.orders = []
        self.issued = self.site = 0
        self.numbers, self.others = [], []

    def issue(self, text):
        self.orders.append(order(text))
        self.issued += 1
        self.site += 1
        return inf(self.issued - 1)

    def fresh(self):
        return self.issue("00" + num(1000 + self.site) + "00")

    def literal(self):
        self.numbers.append(self.issue("01" + num(1000 + self.site) + self.rng.choice(("02", "02", "09"))))
        return self.numbers[-1]

    def hole(self):
        return self.issue("02" + num(self.site))

    def pose(self, left, right):
        self.orders.append(pair(left, right, 1000))

    def local(self, term):
        """A variable of the script that has this type."""
        one = self.fresh()
        self.pose(one, term)
        self.others.append(one)
        return one

    def some(self):
        return self.rng.choice(self.others) if self.others else self.literal()

    def let_number(self):
        self.local(self.literal())

    def let_array(self):
        element = self.fresh()
        for _ in range(3):
            self.pose(element, self.literal() if self.rng.random() < 0.6 else I32)
        self.local(arr(element))

    def let_tuple(self):
        one = self.local(tup(self.some(), self.literal(), I64))
        self.pose(tup(self.fresh(), self.fresh(), self.fresh()), one)

    def let_annotated(self):
        hole = self.hole()
        self.local(map_(RW, I32, hole))
        self.pose(hole, typed(self.rng, 5))

    def call(self):
        """A generic function: its signature is instantiated, then met with the arguments."""
        first, second, result = self.fresh(), self.fresh(), self.fresh()
        signature = fun([gen(7, 0), arr(gen(7, 1))], tup(gen(7, 0), gen(7, 1)))
        self.orders.append(order("0c" + subst([(7, 0, first), (7, 1, second)]) + signature))
        self.pose(fun([self.some(), arr(self.some())], result), fun([first, arr(second)], tup(first, second)))
        self.others.append(result)

    def field(self):
        """A nominal with a member is made, and met again with fresh variables."""
        one = self.local(struct(201, [self.some()], [(5, self.some()), (6, I32)]))
        value = self.fresh()
        self.pose(struct(201, [self.fresh()], [(5, value), (6, I32)]), one)
        self.others.append(value)

    def branch(self):
        one = self.fresh()
        self.orders.append(order("03" + one))
        for _ in range(2):
            self.pose(one, self.rng.choice(self.numbers) if self.numbers else I32)

    def check(self):
        """What is known is asked for, and compared with what is declared."""
        declared = typed(self.rng, 6)
        self.orders += [resolve(self.some()), order("0f" + declared), order("09" + declared + typed(self.rng, 6)),
                        order("0a" + declared + declared)]

    def associated(self):
        rules = [rule(nom(7), struct(200 + n), 3, [], I32) for n in range(4)]
        self.orders.append(order("14" + seq(*rules) + arr(proj(struct(202), nom(7), 3))))

    def statement(self):
        names = ("let_number", "let_array", "let_tuple", "let_annotated", "call", "field", "branch", "check", "check", "associated")
        getattr(self, self.rng.choice(names))()
        if self.rng.random() < 0.3:
            self.orders.append(revision())

    def whole(self, statements):
        for _ in range(statements):
            self.statement()
        self.orders += defaults() + [resolve(inf(number)) for number in range(0, self.issued, 2)] + [revision()]
        return sheet(self.orders)


def typical():
    return [Script(seed).whole(statements) for seed, statements in enumerate((20, 24, 28, 32, 36, 40, 44, 48))]


# Orders 0 to 8

def bars_session():
    return [bytes.fromhex("03000700 03000800 0c040909010009050201010402 07040901010901 00 0305 0100 0108".replace(" ", ""))]


def resolve_heavy():
    """31 variables in a tree, each bound to a term with two more; 200 terms of them are resolved."""
    rng = random.Random(5)
    orders = variables(31)
    for n in range(31):
        below = [inf(child) if child < 31 else I32 for child in (2 * n + 1, 2 * n + 2)]
        orders.append(pair(inf(n), fun([arr(below[0])], struct(202, [below[1]], [(5, I32)]))))
    for _ in range(200):
        orders.append(resolve(tup(inf(rng.randrange(31)), inf(rng.randrange(7, 31)))))
    return [sheet(orders)]


def wide_sheets(children=2000):
    """Bound whole and resolved; two Tuples that are equal; variables against builtins."""
    half, some = children // 2, min(500, children // 4)
    bound = variables(1) + [pair(inf(0), tup(*leaves(children))), resolve(inf(0))]
    equal = [pair(tup(*leaves(half)), tup(*leaves(half)), 5000)]
    solved = variables(some) + [pair(tup(*(inf(n) for n in range(some))), tup(*leaves(some)), 5000), resolve(tup(*map(inf, range(some))))]
    return [sheet(orders) for orders in (bound, equal, solved)]


def deep_pair(levels):
    """Two terms of so many levels, with a variable inside."""
    return variables(1) + [pair(arr(inf(0), levels - 1), arr(I32, levels - 1), 5000)]


def deep_sheets():
    layered = random.Random(6)
    one, other = inf(0), I32
    for _ in range(198):
        layer = layered.choice((arr, lambda t: ref(0, t), lambda t: tup(t, I64), lambda t: fun([I64], t), lambda t: struct(201, [t])))
        one, other = layer(one), layer(other)
    return [sheet(orders) for orders in (deep_pair(200), variables(1) + [pair(one, other, 5000), resolve(one)])]


def plain_numbers(count, fallback):
    return [order("01" + num(n) + fallback) for n in range(count)]


def range_numbers(count, fallback, bounds):
    """Orders 21, whose bounds take turns."""
    return [order("15" + num(n) + fallback + bounds[n % len(bounds)]) for n in range(count)]


def joined(requests):
    """Number variables, each joined to another; then the defaults, and what each of them resolves to."""
    rng, count = random.Random(7), len(requests)
    links = [pair(inf(n), inf(rng.randrange(n)), 100) for n in range(1, count)]
    return requests + links + defaulted(count)


def defaulted(count):
    return defaults() + [resolve(inf(n)) for n in range(count)]


def joins(count):
    return joined(plain_numbers(count, "02"))


def satisfied(times):
    """A lattice: a contour's type is met once, which binds its variables, and then for every cell."""
    contour = map_(RO, struct(201), arr(tup(inf(1), inf(2), arr(inf(3)))))
    cell = pair(arr(inf(0)), arr(contour), 1000)
    bound = [pair(inf(1), struct(202, [inf(2)]), 1000), pair(inf(2), F64, 1000), pair(inf(3), tup(inf(2), inf(2)), 1000)]
    return variables(4) + [cell] + bound + [cell] * times + [resolve(inf(0)), revision()]


def collected(levels):
    """Sets and Maps of both accesses in each other, with a variable inside, and 40 pairs of them that are satisfied."""
    one, other = inf(0), I32
    for level in range(levels):
        layer = (lambda t: set_(RO, t), lambda t: map_(RW, I64, t), lambda t: set_(RW, t), lambda t: map_(RO, t, I64))[level % 4]
        one, other = layer(one), layer(other)
    return variables(2) + [pair(one, other, 1000), pair(inf(1), one, 1000)] + [pair(arr(inf(1)), arr(other), 1000)] * 40 + [resolve(inf(1)), revision()]


def strictly(one):
    """The sheet with every order 4 as an order 22."""
    return b"".join(framed(b"\x16" + order[1:] if order[:1] == b"\x04" else order) for order in split(one)[0])


def beside(name, first, second):
    """Two lists of sheets that are answered with the same bytes."""
    if [run(one, MOST_ROOM) for one in first] != [run(one, MOST_ROOM) for one in second]:
        sys.exit("%s: the answers are not the same" % name)
    return Beside(name, first, second)


def strict_pairs():
    """Rows of pairs that both orders answer with the same bytes, as no two Sets or Maps of different access meet."""
    rows = [("small: the bar's session", bars_session()), ("resolve-heavy", resolve_heavy()), ("wide, 2,000 children", wide_sheets()),
            ("deep, 200 levels", deep_sheets()), ("many joins, 512 variables", [sheet(joins(512))]),
            ("a satisfied pair 2,000 times", [sheet(satisfied(2000))]), ("Sets and Maps, 40 levels", [sheet(collected(40))]),
            ("typical script", typical())]
    return [beside(name, sheets, [strictly(one) for one in sheets]) for name, sheets in rows]


# Bounds of order 21: 0 to 200, -1 to 100, 0 to 70,000, and 2^63.
UP_TO_200, SIGNED, UP_TO_70000, LARGE = "000000 0000c801", "010001 000064", "000000 0000f0a204", "00808080800800 00808080800800"


def ranges(count):
    """Rows of number variables that are answered with the same bytes: by order 1 with the type that order 21 takes at last."""
    plain, large = plain_numbers(count, "02"), plain_numbers(count, "07")
    rows = [("many joins, one range", joined(plain), joined(range_numbers(count, "02", [UP_TO_200]))),
            ("many joins, three ranges", joined(plain), joined(range_numbers(count, "00", [UP_TO_200, SIGNED, UP_TO_70000]))),
            ("defaults, the fallback is admitted", plain + defaulted(count), range_numbers(count, "02", [UP_TO_200]) + defaulted(count)),
            ("defaults, the first of the list is", plain + defaulted(count), range_numbers(count, "00", [UP_TO_200]) + defaulted(count)),
            ("defaults, the fourth of the list is", large + defaulted(count), range_numbers(count, "09", [LARGE]) + defaulted(count))]
    return [beside("%s, %d variables" % (name, count), [sheet(first)], [sheet(second)]) for name, first, second in rows]


# Orders 9 to 20

def twins(rng, nodes, left, right):
    """Two types of one form with leaves of their own."""
    seed = rng.random()
    return typed(random.Random(seed), nodes, left), typed(random.Random(seed), nodes, right)


def given(rng, nodes):
    return [(7, position, typed(rng, nodes)) for position in range(3)]


def nominal_pair(rng, nodes):
    """A nominal, and one that requires half of its members."""
    part = max(1, nodes // 6)
    arguments = [typed(rng, part) for _ in range(2)]
    members = [(5 + n, typed(rng, part)) for n in range(4)]
    return nom(201, arguments, members) + nom(201, arguments, members[:2])


def rules_of(rng, how_many, nodes):
    return [rule(nom(7), struct(190 + n), n % 4, [], typed(rng, nodes)) for n in range(how_many)]


def order_text(kind, rng, nodes):
    """An order of a kind, with terms of so many nodes together."""
    half, most = nodes // 2, nodes - 8
    if kind in (9, 10, 11):
        left, right = twins(rng, half, holes_of(plain_leaf, 0.2) if kind == 11 else plain_leaf, plain_leaf)
        return set_(RW, left) + set_(RO, right) if kind == 10 else left + right
    if kind in (12, 13):
        return subst(given(rng, 3)) + (params((7, 0), (7, 3)) if kind == 13 else "") + typed(rng, most, generic_leaf)
    if kind == 14:
        return num(7) + typed(rng, 3) + typed(rng, most, self_leaf)
    if kind == 15:
        return typed(rng, nodes, generic_leaf)
    if kind == 16:
        return params((7, 0), (7, 1), (7, 2)) + typed(rng, nodes, generic_leaf)
    if kind == 17:
        return nominal_pair(rng, nodes) + typed(rng, 4)
    if kind == 18:
        return params((7, 0), (7, 1)) + typed(rng, most, generic_leaf) + subst([(7, 2, I32)]) + seq(typed(rng, 3), I64)
    if kind == 19:
        return typed(rng, most // 2, projected_leaf) + nom(7, [], [(n, typed(rng, 3)) for n in range(4)]) + struct(201)
    return seq(*rules_of(rng, 16, 2)) + typed(rng, max(8, most // 2), projected_leaf)


def orders_of(kind, how_many, nodes):
    rng = random.Random(100 * kind + nodes)
    return [sheet(order("%02x" % kind + order_text(kind, rng, nodes)) for _ in range(how_many))]


NAMES = {9: "conflicts", 10: "weakens", 11: "recover", 12: "instantiate", 13: "argument context", 14: "with_self", 15: "questions",
         16: "resolved in", 17: "satisfies", 18: "family", 19: "with_associated_types", 20: "normalise"}


def classes():
    found = [Class("typical script", typical()), Class("small: the bar's session", bars_session()), Class("resolve-heavy", resolve_heavy()),
             Class("wide, 2,000 children", wide_sheets()), Class("deep, 200 levels", deep_sheets()),
             Class("many joins, 512 variables", [sheet(joins(512))]), Class("a satisfied pair 2,000 times", [sheet(satisfied(2000))])]
    for kind, name in NAMES.items():
        for how_many, nodes in ((200, 24), (10, 1000)):
            found.append(Class("%d %s, %s nodes" % (kind, name, format(nodes, ",")), orders_of(kind, how_many, nodes), 1 << 20))
    return found


# Hazards

def deep_pieces(levels, end, first=0):
    """A term of so many levels in pieces of 190, each bound to a variable."""
    pieces, at = [], first
    while levels > 0:
        piece = min(levels, 190)
        levels -= piece
        pieces.append(pair(inf(at), arr(inf(at + 1) if levels else end, piece)))
        at += 1
    return pieces


def deep_resolved(levels):
    return variables(20) + deep_pieces(levels, I32) + [resolve(inf(0))]


def deep_unequal(levels):
    """Two resolved terms, unequal at the leaf: a check for each level, with an equality test each."""
    return variables(40) + deep_pieces(levels, I32) + deep_pieces(levels, I64, 20) + [pair(inf(0), inf(20))]


def huge_answer(count):
    return variables(count) + chains.chain(0, count, I32) + [resolve(inf(0))]


def access_chain(first, count, access):
    doubled = [pair(inf(n), set_(access, tup(inf(n + 1), inf(n + 1)))) for n in range(first, first + count - 1)]
    return doubled + [pair(inf(first + count - 1), set_(access, I32))]


def access_doubling(levels, checks):
    """ReadOnly and Mutable Sets of Tuples of the next one twice: every path is checked."""
    return variables(2 * levels) + access_chain(0, levels, RO) + access_chain(levels, levels, RW) + [pair(inf(0), inf(levels), checks)]


def normalised(kind, visits):
    return [order("%02x" % kind + inserted(kind, visits))]


def many_parameters(count):
    """Order 13: 2,047 Generics, each looked for in parameters that do not have it."""
    return [order("0d" + subst() + num(count) + params((1, 1))[2:] * count + tup(*[gen(2, 1)] * 2047))]


def hazards():
    """Each a sheet. Where a tree would double, the Rust is not asked."""
    found = []

    def add(name, orders, room=ROOM, rust=True):
        found.append(Class(name, [sheet(orders)], room, rust))
    add("doubling chains, equal, 500 variables", chains.equal(500), rust=False)
    for checks in (1000, 100000):
        add("doubling chains, unequal at the leaf, 500 variables, k = %s" % format(checks, ","), unequal(500, checks), rust=False)
    for checks in (1000, 100000):
        add("doubling chains, Sets that differ in access at the leaf, order 22, 500 variables, k = %s" % format(checks, ","),
            strict_unequal(500, checks), rust=False)
    add("a doubling chain that ends in itself, 500 variables", chains.cyclic(499), rust=False)
    add("a doubling chain bound whole, 500 variables", chains.free(499), rust=False)
    add("aliases, 500 variables, falling", chains.alias(500))
    add("aliases, 500 variables, rising", chains.rising(500))
    add("aliases, 500 variables, in a star", chains.star(500))
    add("a chain of 500 aliases met 1,000 times", chains.met_again(500, 1000))
    add("a resolved term of 2,020 levels", deep_resolved(2020))
    add("two resolved terms of 1,000 levels, unequal at the leaf", deep_unequal(1000))
    add("an answer of 2^500 bytes, room 32,768", huge_answer(500), rust=False)
    add("an answer of 2^500 bytes, room 16,777,216", huge_answer(500), MOST_ROOM, False)
    for name, one in zip(("bound and resolved", "equal", "variables against builtins"), wide_sheets()):
        found.append(Class("wide terms, 2,000 children, " + name, [one]))
    for kind in (19, 20):
        add("order %d, 8,161 visits on wide terms" % kind, normalised(kind, 8161))
    add("256 rules that almost match, 8,000 visits", [order("14" + unmatched(256, 8000))])
    for checks in (1000, 100000, 1000000):
        add("Set ReadOnly/Mutable doubling, 200 levels, k = %s" % format(checks, ","), access_doubling(200, checks), rust=False)
    add("Set ReadOnly/Mutable doubling, 10 levels, 3,071 checks", access_doubling(10, 5000))
    for kind, name, fields in LIMITS:
        add("order %d, %s" % (kind, name), [order("%02x" % kind + fields)])
    add("order 13, 2,047 Generics, 100,000 parameters", many_parameters(100000))
    return found


def unequal(count, checks):
    orders = chains.unequal(count)
    half = count // 2
    return orders[:-1] + [pair(inf(0), inf(half), checks)]


def strict_unequal(count, checks):
    """As unequal, by access alone: order 22 checks every path."""
    orders = chains.twins(count, set_(RO, I32), set_(RW, I32))
    return orders[:-1] + [order("16" + num(checks) + inf(0) + inf(count // 2))]


def solver_shapes():
    """Chains of many shapes: names and a sheet for each size."""
    for name, shape in chains.SHAPES:
        less = int(shape in (chains.cyclic, chains.free))
        yield name, [sheet(shape(size - less)) for size in chains.SIZES]


# Growing shapes

def bound_and_resolved(nodes):
    return variables(1) + [pair(inf(0), tup(*leaves(nodes - 3))), resolve(inf(0))]


def instantiated(nodes):
    return [order("0c" + subst([(0, 0, I32)]) + tup(gen(0, 0), *leaves(nodes - 3)))]


def solved_pair(nodes):
    """A Tuple of variables against one of builtins: a check and a binding for each."""
    count = min(510, (nodes - 2) // 2)
    return variables(count) + [pair(tup(*map(inf, range(count))), tup(*leaves(count)), 5000)]


SMALL_TO_512 = (8, 16, 32, 64, 128, 256, 512)
SMALL_TO_2048 = (16, 32, 64, 128, 256, 512, 1024, 2048)
GROWTHS = (
    Growth("equal doubling chains", "variables", (4, 8, 12, 16, 20, 24, 28, 50, 100, 200, 500), chains.equal, 28),
    Growth("unequal doubling chains, k = 10,000", "variables", (8, 16, 32, 64, 128, 256, 500), lambda n: unequal(n, 10000), 16),
    Growth("number variables joined and resolved", "variables", SMALL_TO_512, joins, 512),
    Growth("variables bound one by one in a pair", "nodes", (16, 32, 64, 128, 256, 512, 1020), solved_pair, 2048),
    Growth("a wide term bound and resolved", "nodes", SMALL_TO_2048, bound_and_resolved, 2048),
    Growth("two deep terms, unequal at the leaf", "levels", (10, 20, 50, 100, 200, 500, 1000), deep_unequal, 1000),
    Growth("Set ReadOnly/Mutable doubling, 200 levels", "checks k", (10, 100, 1000, 10000, 100000, 1000000),
           lambda k: access_doubling(200, k), 0),
    Growth("order 20, a shared value", "visits", (256, 512, 1024, 2048, 4096, 8161), lambda n: normalised(20, n), 8192),
    Growth("order 12, a wide term", "nodes", SMALL_TO_2048, instantiated, 2048),
)
