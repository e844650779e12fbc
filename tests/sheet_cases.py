#!/usr/bin/env python3
"""Fixed sheets, with the outcome of every order stated by hand.

  python3 tests/sheet_cases.py write DIR     write DIR/stdin and DIR/stdout, one sheet with all parts without orders 21 and 22
  python3 tests/sheet_cases.py sheets DIR    write every sheet as DIR/NAME.in, and its answers as DIR/NAME.out
  python3 tests/sheet_cases.py frames DIR    write DIR/stdin and DIR/stdout for the program `sheets`: all runs, areas filled before
  python3 tests/sheet_cases.py check DIR     whether they are what `frames` would write
  python3 tests/sheet_cases.py list          print every order with its answer
  python3 tests/sheet_cases.py slips         show for each slip the first sheet that finds it

Each part is a function that poses orders and states their answers. It makes
a sheet of its own, and all parts but those that fill the session make three
sheets together, one of the parts with order 21, one of the others with order
22 and one of the rest: every part takes variables and sites of its own. The script
stops where the reference answers anything else. tests/sheet_compare.py runs
all of them, and with --oracle compares them with the Rust.

Bytes are hexadecimal. orders_cases.py has the functions that write terms.
"""

import os
import sys
from struct import pack

import orders_cases
import sheet_reference as reference
from cases import check_plain, check_slips, check_stored, put, run_cases, shortened, store
from orders_cases import (
    F32, F64, I8, I32, I64, MUT, NEVER, NONE, RO, RW, SHARED, E, U, arr, builtin, enum, fun, gen, host, inf, iter_, map_, native,
    nom, num, params, proj, range_, ref, self_, seq, set_, struct, subst, trait, tup)
from sheet_reference import Run, Sheet
from terms_reference import Reader, framed

MOST = 4294967295
ROOM = Sheet.OUTPUT
NO, YES, CANCELLED = "00", "01", "02"
ANY = "any"     # outcome 0, with the value of the reference
PARTS = []      # (name, function, whether it may stand with others)
SHEETS = []     # (name, room, sheet, run)
LARGE = ("exponential_large", "exponential_large_both", "doubled_500")
RUNS = []       # (name, sheet, room, words, reason, orders, bytes)


def part(alone=False):
    def add(function):
        PARTS.append((function.__name__, function, alone))
        return function
    return add


class Script:
    """Orders with their stated outcomes. Variables get sites that no other part uses."""

    def __init__(self):
        self.steps = []     # (comment, order, outcome)
        self.count = 0
        self.site = 1000
        self.bound = 0
        self.kept = 0
        self.has_number = False     # whether a number variable is free

    def order(self, comment, text, outcome):
        """An outcome is a refusal, or the value that follows outcome 0."""
        self.steps.append((comment, bytes.fromhex(text), outcome))

    def new_site(self):
        self.site += 1
        return self.site

    def var(self):
        """A new variable."""
        return self.variable_at(self.new_site(), 0)

    def variable_at(self, site, slot):
        self.count += 1
        self.order("a variable", "00" + num(site) + num(slot), inf(self.count - 1))
        return inf(self.count - 1)

    def vars(self, how_many):
        return [self.var() for _ in range(how_many)]

    def number(self, fallback):
        """A new number variable."""
        self.count += 1
        self.order("a number variable", "01" + num(self.new_site()) + "%02x" % fallback, inf(self.count - 1))
        return inf(self.count - 1)

    def range(self, fallback, low, high):
        """A new number variable between two bounds."""
        self.count += 1
        self.order("a number variable from %d to %d" % (low, high), ranged(self.new_site(), fallback, low, high), inf(self.count - 1))
        return inf(self.count - 1)

    def again(self, comment, behind, fallback, low, high, outcome):
        """An order 21 for the site of the number variable that was requested so many requests ago."""
        self.order(comment, ranged(self.site - behind, fallback, low, high), outcome)

    def defaults(self, bound):
        """Numeric defaults that bind so many variables."""
        self.order("defaults", "06", YES if bound else NO)
        self.bound += bound

    def hole(self):
        self.count += 1
        self.order("a hole", "02" + num(self.new_site()), inf(self.count - 1))
        return inf(self.count - 1)

    def pose(self, comment, left, right, answer=YES, bound=0, k=1000, kind="04"):
        """A pair that binds so many variables. It keeps its nodes where it binds one."""
        self.order(comment, kind + num(k) + left + right, answer)
        self.kept += nodes(left) + nodes(right) if bound else 0
        self.bound += bound

    def strictly(self, comment, left, right, answer=YES, bound=0, k=1000):
        self.pose(comment, left, right, answer, bound, k, "16")

    def both(self, comment, left, right, answer=YES, k=1000):
        """A pair that binds nothing, posed by either order with the same answer."""
        self.pose(comment, left, right, answer, 0, k)
        self.strictly(comment + ", strictly", left, right, answer, 0, k)

    def shows(self, comment, term, value):
        self.order(comment, "05" + term, value)

    def free(self, *variables):
        for variable in variables:
            self.shows("still free", variable, variable)

    def revision(self, comment="the revision"):
        self.order(comment, "08", num(self.bound))

    def sheet(self):
        return b"".join(framed(order) for _, order, _ in self.steps)

    def stated(self):
        """The answers, with the reference's where ANY is stated."""
        session, out = Sheet(), b""
        for comment, order, outcome in self.steps:
            found = session.step(order, 1 << 24)
            if outcome == ANY and outcome_of(found) == 0:
                wanted = found
            else:
                wanted = framed(bytes([outcome]) if isinstance(outcome, int) else b"\x00" + bytes.fromhex(outcome))
            if found != wanted:
                sys.exit("%s\n  order     %s\n  stated    %s\n  reference %s"
                         % (comment, order.hex(" ")[:300], wanted.hex(" ")[:300], found.hex(" ")[:300]))
            out += found
        return out


def bound(value):
    return ("01" if value < 0 else "00") + num(abs(value) >> 32) + num(abs(value) & MOST)


def ranged(site, fallback, low, high):
    """An order 21."""
    return "15" + num(site) + "%02x" % fallback + bound(low) + bound(high)


def outcome_of(answer):
    fields = Reader(answer)
    fields.number()
    return fields.byte()


def nodes(text):
    fields = reference.Fields(bytes.fromhex(text), 1 << 32)
    fields.term(1)
    return fields.nodes_read


# ---------------------------------------------------------------- Document 01

@part()
def bar(s):
    """The bar's session of document 01, byte for byte."""
    first = len(s.steps)
    x, y = s.variable_at(7, 0), s.variable_at(8, 0)
    s.pose("Array(?0) meets Array(Tuple(?1, I32))", arr(x), arr(tup(y, I32)), YES, 1, 9)
    s.pose("?1 meets Array(?0), which contains it", y, arr(x), NO, 0, 9)
    s.shows("?0", x, tup(y, I32))
    s.revision()
    if first == 0:
        given = bytes.fromhex("03 00 07 00 03 00 08 00 0c 04 09 09 01 00 09 05 02 01 01 04 02"
                              "07 04 09 01 01 09 01 00 03 05 01 00 01 08")
        wanted = bytes.fromhex("03 00 01 00 03 00 01 01 02 00 01 02 00 00 07 00 05 02 01 01 04 02 02 00 01")
        if s.sheet() != given or s.stated() != wanted:
            sys.exit("the bar's session is not that of document 01")


@part()
def marked_lines(s):
    """The marked lines of document 01 that a sheet can show."""
    s.order("7f is 127", "0b 10 7f 02", "10 7f")
    s.order("80 01 is 128", "0b 10 80 01 02", "10 80 01")
    s.order("80 00", "0b 10 80 00 02", 3)
    s.order("the largest number", "0b 10 ff ff ff ff 0f 02", "10 ff ff ff ff 0f")
    s.order("80 80 80 80 10", "0b 10 80 80 80 80 10 02", 3)
    s.order("ReadOnly and Mutable Set of I32 conflict", "09" + set_(RO, I32) + set_(RW, I32), "01")
    s.pose("yet constrain compatibly", set_(RO, I32), set_(RW, I32), YES)
    s.order("Mutable weakens to ReadOnly", "0a" + set_(RW, I32) + set_(RO, I32), "01")
    s.order("not back", "0a" + set_(RO, I32) + set_(RW, I32), "00")
    s.order("a projection with receiver Unknown is unresolved, contains_unknown is 0", "0f" + proj(U, nom(0), 0),
            "00 00 00 01 00 00 01")
    for k, answer, bound in ((1, CANCELLED, 0), (2, YES, 1)):
        x, y = s.vars(2)
        s.pose("the session's first pair with k = %d" % k, arr(x), arr(tup(y, I32)), answer, bound, k)
        s.shows("its variable", x, tup(y, I32) if bound else x)
    s.revision()


@part()
def run_only(s):
    """Levels, the depth of normalising, an empty order."""
    x = s.var()
    s.order("3: 200 levels", "03" + arr(x, 199), "")
    s.order("3: 201 levels", "03" + arr(x, 200), 4)
    s.shows("5: 200 levels", arr(x, 199), arr(x, 199))
    s.order("5: 201 levels", "05" + arr(x, 200), 4)
    s.pose("4: 200 levels", arr(x, 199), arr(I32, 199), YES, 1)
    s.order("4: 201 levels on the right", "04 09" + I32 + arr(x, 200), 4)
    s.shows("what that bound", x, I32)
    s.order("15: 200 levels", "0f" + arr(U, 199), "00 00 00 01 01 00 00")
    s.order("15: 201 levels", "0f" + arr(U, 200), 4)
    s.order("201 levels: the level before an unlisted tag", "05" + "09" * 200 + "14", 4)
    s.order("200 levels: an unlisted tag", "05" + "09" * 199 + "14", 2)
    s.order("a projection under 63 Arrays keeps I32", "14 00" + arr(proj(I32, nom(0), 0), 63), arr(proj(I32, nom(0), 0), 63))
    s.order("under 64 it gets Error there", "14 00" + arr(proj(I32, nom(0), 0), 64), arr(proj(E, nom(0), 0), 64))
    s.order("the depth cuts every branch of a term with a projection", "14 00" + tup(arr(I32, 65), proj(I32, nom(0), 0)),
            tup(arr(E, 64), proj(I32, nom(0), 0)))
    s.order("an empty order", "", 1)
    s.revision()


@part(alone=True)
def variables_512(s):
    """512 variables of all three kinds, and no more."""
    fill_variables(s)


def fill_variables(s):
    first, last_hole = None, None
    while s.count < 512:
        if s.count % 3 == 0:
            first = first or s.site + 1
            s.var()
        elif s.count % 3 == 1:
            last_hole = s.site + 1
            s.hole()
        else:
            s.number(9)
    site = num(s.new_site())
    s.order("a 513th variable", "00" + site + "00", 8)
    s.order("a 513th number variable", "01" + site + "02", 8)
    s.order("a 513th hole", "02" + site, 8)
    s.order("a place that is there", "00" + num(first) + "00", ANY)
    s.order("a hole that is there", "02" + num(last_hole), ANY)
    s.shows("variable 511", inf(511), inf(511))
    s.order("variable 512", "05" + inf(512), 6)
    s.order("leftover bytes before 8", "00" + site + "00 00", 1)


@part(alone=True)
def nodes_2048(s):
    """2,048 kept nodes, and no more."""
    x, *free = s.vars(5)
    s.order("2,048 nodes in one order", "05" + tup(*[U] * 2047), tup(*[U] * 2047))
    s.order("2,049 nodes in one order", "05" + tup(*[U] * 2048), 7)
    s.order("an order 5 keeps none", "05" + tup(*[U] * 2047), tup(*[U] * 2047))
    s.order("an order 3 keeps none", "03" + tup(*[U] * 2047), "")
    fill_nodes(s, x, free)


def fill_nodes(s, x, free):
    """Pairs that bind keep all their nodes, however they end; those that bind nothing keep none."""
    wide = tup(*[U] * 93)
    s.pose("a compatible pair that binds keeps its nodes", tup(free[0], wide), tup(I32, U), YES, 1)
    s.pose("an incompatible one too", tup(free[1], I32, wide), tup(I32, I64, U), NO, 1)
    s.pose("a cancelled one too", tup(wide, I32, free[2]), tup(U, I32, I32), CANCELLED, 1, 2)
    s.pose("a compatible pair that binds nothing keeps none", tup(*[U] * 399), U)
    s.pose("nor does an incompatible one", tup(*[I32] * 399), arr(I32), NO)
    s.pose("nor a cancelled one", tup(*[U] * 399), U, CANCELLED, 0, 0)
    s.order("nor a refused one", "04 09" + tup(free[3], *[U] * 99) + inf(600), 6)
    left = 2048 - s.kept
    s.order("one node too many, which would bind nothing", "04 09" + tup(*[U] * (left - 1)) + U, 7)
    s.order("one node too many, which would bind a variable", "04 09" + tup(free[3], tup(*[U] * (left - 5))) + tup(I32, U), 7)
    s.free(free[3])
    s.pose("the space left, which binds nothing", tup(*[U] * (left - 2)), U)
    s.pose("the same once more", tup(*[U] * (left - 2)), U)
    fill(s, free[3], 1)
    s.shows("one node fits", x, x)
    s.order("two do not", "05" + arr(x), 7)
    s.order("nor in a pair", "04 09" + x + U, 7)
    s.order("nor in orders 9 to 20", "09" + U + U, 7)
    s.order("one node in order 15", "0f" + U, "00 00 00 01 01 00 00")
    s.order("two nodes in order 15", "0f" + arr(U), 7)
    s.order("an unlisted tag before 7", "05" + tup(*["02"] * 5000) + "14", 1)
    s.order("an id that is not issued before 7", "05" + arr(inf(600), 4), 6)
    s.order("leftover bytes before 7", "05" + arr(x, 4) + "00", 1)
    s.order("defaults count no node", "06", "01" if s.has_number else "00")
    s.shows("one node fits as before", U, U)
    s.order("a level before 7", "05" + arr(x, 200), 4)


def fill(s, variable, left):
    """A pair that binds a variable and leaves space for so many nodes."""
    s.pose("all nodes but %d are kept" % left, tup(variable, tup(*[U] * (2048 - s.kept - left - 6))), tup(I32, U), YES, 1)


def space_left(s, comment):
    """Shows how many nodes are kept: a pair of the others is answered, and one node more is refused."""
    left = 2048 - s.kept
    s.pose(comment + ": the space left", tup(*[U] * (left - 2)), U)
    s.order(comment + ": one node more", "04 09" + tup(*[U] * (left - 1)) + U, 7)


# ---------------------------------------------------------------- Document 02: pairs that bind nothing keep no nodes

@part(alone=True)
def lattice(s):
    """One satisfied pair for each cell of a lattice: 2,000 times six nodes."""
    x, y = s.vars(2)
    s.pose("the first cell", arr(x), arr(tup(y, I32)), YES, 1)
    for cell in range(2, 2001):
        s.pose("cell %d" % cell, arr(x), arr(tup(y, I32)), YES)
    s.revision()
    space_left(s, "the first cell's nodes are kept")


@part(alone=True)
def pairs_that_bind_nothing(s):
    """Each pair of 58 nodes, 40 times: satisfied ones, and such as clash and are cancelled, at once and after some checks."""
    x, y = s.vars(2)
    s.pose("a contour", x, arr(tup(y, I32)), YES, 1)
    left = tup(*[arr(x)] * 8)
    for name, last, answer, k in (("satisfied", I32, YES, 1), ("incompatible", I64, NO, 1000), ("cancelled at once", I32, CANCELLED, 0),
                                  ("cancelled after a clash", I64, CANCELLED, 30)):
        for _ in range(40):
            s.pose(name, left, tup(*[arr(arr(tup(y, last)))] * 8), answer, 0, k)
        s.free(y)
    s.pose("recovery", y, tup(*[U] * 2000))
    s.pose("a circle", y, tup(*[y] * 2000), NO)
    s.pose("a family", s.number(2), tup(*[I32] * 2000), NO)
    s.revision()
    space_left(s, "the contour's nodes are kept")


@part(alone=True)
def pairs_that_bind(s):
    """They keep all their nodes, also those beside what was bound; posed again they bind nothing and keep none."""
    wide = tup(*[U] * 500)
    for name, left, right, answer, k in (("compatible", [wide], [U], YES, 1000), ("incompatible", [wide, I32], [U, I64], NO, 1000),
                                         ("cancelled", [wide], [U], CANCELLED, 2)):
        x = s.var()
        s.pose(name, tup(*left, x), tup(*right, I32), answer, 1, k)
        for _ in range(3):
            s.pose(name + " again", tup(*left, x), tup(*right, I32), answer, 0, k)
        s.shows("what it bound", x, I32)
        space_left(s, name)
    s.revision()


@part()
def recovery_repeated(s):
    """A compatible pair with Unknown may bind when it is posed again: the part that it passed over is met then."""
    x, _, y, z = s.vars(4)
    for turn, bound in (("first", 1), ("second", 1), ("third", 0)):
        s.pose("the %s time" % turn, tup(x, x), tup(tup(y, z), tup(U, I32)), YES, bound)
        s.revision()
    s.shows("the first time bound ?0, the second ?3", tup(x, y, z), tup(tup(y, I32), y, I32))


@part(alone=True)
def recovery_repeated_keeps(s):
    """The same: nodes are kept the first and the second time."""
    recovery_repeated(s)
    space_left(s, "kept twice")


@part(alone=True)
def ten_nodes_left(s):
    """Pairs of ten nodes and eleven, where there is space for ten."""
    x, y = s.vars(2)
    fill(s, x, 10)
    for _ in range(3):
        s.pose("ten nodes, satisfied", tup(x, I32, x, I32), tup(I32, x, I32, x))
        s.pose("ten nodes, incompatible", tup(x, I32, x, I32), tup(I32, x, I64, x), NO)
        s.pose("ten nodes, cancelled", tup(x, I32, x, I32), tup(I32, x, I32, x), CANCELLED, 0, 0)
        s.pose("ten nodes, cancelled after a clash", tup(x, I32, x, I32), tup(I32, x, I64, x), CANCELLED, 0, 3)
        s.order("eleven nodes, which would be satisfied", "04 09" + tup(x, I32, x, arr(I32)) + tup(I32, x, I32, U), 7)
        s.order("eleven nodes, which would clash", "04 09" + tup(x, I32, x, arr(I32)) + tup(I32, x, I64, U), 7)
        s.order("eleven nodes, which would be cancelled", "04 00" + tup(x, I32, x, arr(I32)) + tup(I32, x, I32, U), 7)
        s.order("eleven nodes, which would bind", "04 09" + tup(y, I32, x, arr(I32)) + tup(I32, x, I32, U), 7)
        s.free(y)
    s.order("ten nodes in order 16", "10 00" + tup(*[I32] * 9), "01")
    s.order("eleven nodes in order 16", "10 00" + tup(*[I32] * 10), 7)
    s.pose("ten nodes that bind", tup(x, I32, x, y), tup(I32, x, I32, x), YES, 1)
    s.order("2,048 are kept: two nodes, satisfied before", "04 09" + x + I32, 7)
    s.order("two nodes, which would be cancelled", "04 00" + x + I32, 7)
    s.order("one node", "05" + x, 7)
    s.order("one node in order 15", "0f" + U, 7)
    s.order("defaults have no nodes", "06", "00")
    s.revision()


@part(alone=True)
def four_nodes_left(s):
    """Pairs of two nodes, by which the space goes down to none."""
    x, y, z = s.vars(3)
    fill(s, x, 4)
    s.pose("four nodes", arr(x), arr(I32))
    for name, variable in (("four", None), ("two", y), ("none", z)):
        if variable:
            s.pose("a pair that binds leaves %s" % name, variable, x, YES, 1)
        for _ in range(3):
            if name == "none":
                s.order("a satisfied pair does not fit", "04 09" + x + I32, 7)
            else:
                s.pose("a satisfied pair fits", x, I32)
    s.revision()


# ---------------------------------------------------------------- Unification, from outside

def sym(declaration):
    """A function symbol as a Struct."""
    return lambda *arguments: struct(declaration, arguments)


@part()
def robinson_1965(s):
    """J. A. Robinson, A Machine-Oriented Logic Based on the Resolution Principle, JACM 12 (1965): the two clauses
    Q(x, g(x), y, h(x, y), z, k(x, y, z)) and not Q(u, v, e(v), w, f(v, w), x). Resolution takes the variables of the
    clauses apart; taken as one x, there is a circle.
    """
    q, g, h, k, e, f = map(sym, range(1, 7))
    x, y, z, u, v, w, other = s.vars(7)
    s.pose("the clauses, taken apart", q(x, g(x), y, h(x, y), z, k(x, y, z)), q(u, v, e(v), w, f(v, w), other), YES, 6)
    y1 = e(g(u))
    w1 = h(u, y1)
    z1 = f(g(u), w1)
    for name, term, value in (("x", x, u), ("v", v, g(u)), ("y", y, y1), ("w", w, w1), ("z", z, z1),
                              ("the other x", other, k(u, y1, z1))):
        s.shows(name, term, value)
    s.free(u)
    x, y, z, u, v, w = s.vars(6)
    s.pose("with the same x", q(x, g(x), y, h(x, y), z, k(x, y, z)), q(u, v, e(v), w, f(v, w), x), NO, 5)
    s.shows("the other parts were met", z, f(g(u), h(u, e(g(u)))))
    s.revision()


@part()
def martelli_montanari_1982(s):
    """A. Martelli and U. Montanari, An Efficient Unification Algorithm, TOPLAS 4 (1982): the system
    g(x2) = x1, f(x1, h(x1), x2) = f(g(x3), x4, x3), and f(x1, g(x2, x3), x2, b) = f(g(h(a, x5), x2), x1, h(a, x4), x4).
    """
    f, g, h = map(sym, range(11, 14))
    x1, x2, x3, x4 = s.vars(4)
    s.pose("the first equation", g(x2), x1, YES, 1)
    s.pose("the second equation", f(x1, h(x1), x2), f(g(x3), x4, x3), YES, 2)
    s.shows("x1", x1, g(x3))
    s.shows("x2", x2, x3)
    s.shows("x4", x4, h(g(x3)))
    s.free(x3)
    a, b = struct(14), struct(15)
    x1, x2, x3, x4, x5 = s.vars(5)
    s.pose("the example of the algorithm", f(x1, g(x2, x3), x2, b), f(g(h(a, x5), x2), x1, h(a, x4), x4), YES, 5)
    for name, term, value in (("x1", x1, g(h(a, b), h(a, b))), ("x2", x2, h(a, b)), ("x3", x3, h(a, b)), ("x4", x4, b),
                              ("x5", x5, b)):
        s.shows(name, term, value)
    s.revision()


@part()
def baader_snyder_2001(s):
    """F. Baader and W. Snyder, Unification Theory, Handbook of Automated Reasoning, chapter 8 (2001): f(a, x) and
    f(y, b); x and f(x); terms with different symbols.
    """
    f, g = map(sym, (21, 22))
    a, b = struct(23), struct(24)
    x, y = s.vars(2)
    s.pose("f(a, x) = f(y, b)", f(a, x), f(y, b), YES, 2)
    s.shows("x", x, b)
    s.shows("y", y, a)
    x, y = s.vars(2)
    s.pose("x = f(x)", x, f(x), NO)
    s.pose("f(x) = x", f(x), x, NO)
    s.pose("x = y", x, y, YES, 1)
    s.pose("x = f(y), a circle of two", x, f(y), NO)
    s.free(y)
    s.pose("f(y) = g(y)", f(y), g(y), NO)
    s.pose("f(y) = f(y, y)", f(y), f(y, y), NO)
    s.pose("a = b", a, b, NO)
    s.free(y)
    s.revision()


def exponential(s, n):
    """h(x1, ..., xn) = h(f(x0, x0), ..., f(xn-1, xn-1))."""
    f, h = map(sym, (25, 26))
    x = s.vars(n + 1)
    s.pose("the exponential family, n = %d" % n, h(*x[1:]), h(*(f(t, t) for t in x[:-1])), YES, n)
    values = [x[0]]
    for _ in range(min(n, 10)):
        values.append(f(values[-1], values[-1]))
    return x, values


def exponential_both(s, n):
    """h(x1, ..., xn, f(y0, y0), ..., f(yn-1, yn-1), yn) = h(f(x0, x0), ..., f(xn-1, xn-1), y1, ..., yn, xn)."""
    f, h = map(sym, (25, 27))
    x, y = s.vars(n + 1), s.vars(n + 1)
    s.pose("the exponential family on both sides, n = %d" % n, h(*x[1:], *(f(t, t) for t in y[:-1]), y[-1]),
           h(*(f(t, t) for t in x[:-1]), *y[1:], x[-1]), YES, 2 * n + 1)
    s.shows("y0", y[0], x[0])
    s.shows("y1", y[1], f(x[0], x[0]))
    return x, y


@part()
def exponential_small(s):
    """Baader and Snyder, as above: the family with a most general unifier of exponential size."""
    x, values = exponential(s, 5)
    for index in range(6):
        s.shows("x%d" % index, x[index], values[index])
    x, y = exponential_both(s, 4)
    s.shows("x4 and y4 are one", tup(x[4], y[4]), ANY)
    s.pose("posed once more, x4 = y4", x[4], y[4], YES, 0, 1)
    s.pose("a circle through all of it", x[0], y[4], NO)
    s.revision()


@part(alone=True)
def exponential_large(s):
    """The same with 250 variables: the answer to the last order would have some 2^250 bytes."""
    x, values = exponential(s, 250)
    s.shows("x8", x[8], values[8])
    s.revision()
    s.pose("a circle", x[0], x[250], NO)
    s.pose("the same pair", x[250], x[250], YES)


@part(alone=True)
def exponential_large_both(s):
    """The same on both sides, n = 100."""
    x, y = exponential_both(s, 100)
    s.revision()
    s.pose("x100 = y100", x[100], y[100], YES, 0, 1)
    s.pose("another circle", y[0], x[100], NO)
    s.pose("x0 gets a value", y[0], I32, YES, 1)
    s.shows("x1", x[1], struct(25, (I32, I32)))


@part(alone=True)
def doubled_500(s):
    """x0 = (x1, x1), x1 = (x2, x2), ..., and the same with y; then x0 = y0."""
    half = 250
    x, y = s.vars(half), s.vars(half)
    for row in (x, y):
        for index in range(half - 1):
            s.pose("one step", row[index], tup(row[index + 1], row[index + 1]), YES, 1)
    s.pose("250 checks down to the ends, and 249 that find equal terms", x[0], y[0], YES, 1, 499)
    s.pose("equal at once", x[0], y[0], YES, 0, 1)
    s.revision()
    s.shows("the ends", x[-1], y[-1])


# ---------------------------------------------------------------- The solver, step by step

@part()
def shapes(s):
    """Which terms meet, and which parts are met."""
    x = s.var()
    for name, left, right in (
            ("Reference", ref(SHARED, I32), ref(MUT, I32)), ("Range", range_(0, I32), range_(1, I32)),
            ("Tuple", tup(I32), tup(I32, I32)), ("Function", fun([I32], I32), fun([], I32)), ("Builtin", I32, I64),
            ("declaration", struct(1), struct(2)), ("arguments", struct(1, [I32]), struct(1)),
            ("members", struct(1, [], [(1, I32)]), struct(1, [], [(2, I32)])), ("Struct and Enum", struct(1), enum(1)),
            ("NativeObject and Trait", native(1), trait(1)), ("Host", host(1), host(2)), ("Generic", gen(0, 0), gen(0, 1)),
            ("SelfType", self_(0), self_(1)), ("Array and Iter", arr(I32), iter_(I32)),
            ("Set and Map", set_(RO, I32), map_(RO, I32, I32)),
            ("projections, receiver", proj(I32, nom(0), 0), proj(I64, nom(0), 0)),
            ("projections, member", proj(I32, nom(0), 0), proj(I32, nom(0), 1)),
            ("projections are not entered", proj(x, nom(0), 0), proj(I32, nom(0), 0)),
            ("a projection and a type", proj(I32, nom(0), 0), I32)):
        s.pose("%s: two that differ" % name, left, right, NO)
        s.pose("%s: the same" % name, left, left, YES)
    s.free(x)
    for name, around in (
            ("Reference", lambda t: ref(MUT, t)), ("Tuple", lambda t: tup(I8, t)), ("parameter", lambda t: fun([t], I8)),
            ("result", lambda t: fun([I8], t)), ("Iter", iter_), ("Range", lambda t: range_(2, t)), ("Array", arr),
            ("key", lambda t: map_(RO, t, I8)), ("value", lambda t: map_(RW, I8, t)), ("Set", lambda t: set_(RW, t)),
            ("argument of a NativeObject", lambda t: native(1, [t])), ("member of a Struct", lambda t: struct(1, [I8], [(4, t)])),
            ("argument of an Enum", lambda t: enum(1, [t, I8])), ("member of a Trait", lambda t: trait(1, [], [(1, I8), (2, t)]))):
        v = s.var()
        s.pose("%s: a variable inside" % name, around(v), around(I32), YES, 1)
        s.shows("%s: what it got" % name, v, I32)
        s.pose("%s: another type inside" % name, around(v), around(I64), NO)
        w = s.var()
        s.pose("%s: a circle" % name, w, around(w), NO)
        s.pose("%s: Unknown inside" % name, w, around(U), YES)
        s.pose("%s: Error inside, with the variable itself" % name, tup(w, E), w, YES)
        s.free(w)
    s.revision()


@part()
def projections(s):
    """Projections as wholes: bound, compared, not entered; looked through for recovery and circles."""
    for name, around in (
            ("receiver", lambda t: proj(t, nom(0), 0)), ("argument", lambda t: proj(I8, nom(0), 0, t)),
            ("interface argument", lambda t: proj(I8, nom(0, [t]), 0)),
            ("interface member", lambda t: proj(I8, nom(0, [], [(3, t)]), 0))):
        x, y, z = s.vars(3)
        s.pose("%s: a variable gets the projection" % name, x, around(y), YES, 1)
        s.pose("%s: not entered" % name, around(y), around(I32), NO)
        s.pose("%s: nor behind a variable" % name, x, around(I32), NO)
        s.free(y)
        s.pose("%s: the variable inside" % name, y, I32, YES, 1)
        s.pose("%s: equal after resolving" % name, x, around(I32), YES, 0, 1)
        s.shows("%s: resolved" % name, x, around(I32))
        s.pose("%s: Unknown inside is not frozen" % name, z, around(U), YES)
        s.pose("%s: nor Error" % name, arr(around(E)), z, YES)
        s.pose("%s: a circle" % name, around(z), z, NO)
        s.pose("%s: Unknown beside it does not help" % name, around(U), around(I32), NO)
        s.free(z)
    s.pose("Unknown meets any", U, proj(I8, nom(0), 0), YES)
    s.revision()


@part()
def recovery(s):
    x, y = s.vars(2)
    n = s.number(2)
    for name, term in (("Unknown", U), ("Error", E)):
        s.pose("%s and a variable" % name, term, x, YES)
        s.pose("a variable and %s" % name, x, term, YES)
        s.pose("%s and a type" % name, term, I32, YES)
        s.pose("a type and %s" % name, arr(I32), term, YES)
        s.pose("recovery before family: %s in a Tuple" % name, n, tup(I32, term), YES)
        s.pose("recovery before the circle: %s" % name, x, tup(x, term), YES)
        s.pose("%s is not frozen" % name, x, fun([term], I32), YES)
    s.pose("Unknown and Error", U, E, YES)
    s.free(x, y, n)
    s.pose("beside Unknown a part is met", tup(x, U), tup(I32, y), YES, 1)
    s.shows("it was bound", x, I32)
    s.pose("Unknown behind a bound variable", y, arr(x), YES, 1)
    s.pose("the pair itself may hold it", y, arr(U), YES)
    s.revision()


@part()
def order_of_parts(s):
    """Parts are met last to first; of a nominal the arguments from the last, then the members from the last."""
    x = s.var()
    s.pose("the last part of a Tuple first", tup(x, x), tup(I32, I64), NO, 1)
    s.shows("Tuple", x, I64)
    x = s.var()
    s.pose("a result before parameters", fun([x], x), fun([I32], I64), NO, 1)
    s.shows("Function", x, I64)
    x = s.var()
    s.pose("a value before its key", map_(RO, x, x), map_(RO, I32, I64), NO, 1)
    s.shows("Map", x, I64)
    x = s.var()
    s.pose("arguments before members", struct(1, [x], [(1, x)]), struct(1, [I32], [(1, I64)]), NO, 1)
    s.shows("Struct", x, I32)
    x = s.var()
    s.pose("the last argument first", struct(1, [x, x], [(1, x)]), struct(1, [I8, I32], [(1, I64)]), NO, 1)
    s.shows("arguments", x, I32)
    x = s.var()
    s.pose("the last member first", trait(1, [], [(1, x), (2, x)]), trait(1, [], [(1, I32), (2, I64)]), NO, 1)
    s.shows("members", x, I64)
    x, y = s.vars(2)
    s.pose("after a clash the rest is met", tup(x, I32, y), tup(I32, I64, I8), NO, 2)
    s.shows("both", tup(x, y), tup(I32, I8))
    x, y = s.vars(2)
    s.pose("a part's parts before its neighbour", tup(x, arr(x)), tup(I32, arr(y)), YES, 2)
    s.shows("x was bound to y first", y, I32)
    s.shows("x", x, I32)
    x, y = s.vars(2)
    s.pose("of two variables the left is bound", x, y, YES, 1)
    s.shows("x", x, y)
    x, y = s.vars(2)
    s.pose("also where its number is larger", y, x, YES, 1)
    s.shows("y", y, x)
    s.pose("a variable and itself", x, x, YES)
    s.pose("and behind a chain", x, y, YES)
    s.revision()


@part()
def checks(s):
    """k checks pass, the next cancels; bindings before it stay."""
    x, y, z = s.vars(3)
    s.pose("k = 0", I32, I32, CANCELLED, 0, 0)
    s.pose("k = 1, equal terms", tup(x, y), tup(x, y), YES, 0, 1)
    s.pose("k = 1, a variable", x, I8, YES, 1, 1)
    s.pose("k = 1, a Tuple", tup(y, z), tup(I32, I64), CANCELLED, 0, 1)
    s.free(y, z)
    s.pose("k = 2: one part is met", tup(y, z), tup(I32, I64), CANCELLED, 1, 2)
    s.shows("it stays", tup(y, z), tup(y, I64))
    s.pose("k = 3", tup(y, z), tup(I32, I64), YES, 1, 3)
    x = s.var()
    s.pose("cancelled outranks the incompatible part before", tup(x, I32), tup(I8, I64), CANCELLED, 0, 2)
    s.pose("one check more", tup(x, I32), tup(I8, I64), NO, 1, 3)
    s.pose("k = 1, a clash", I32, I64, NO, 0, 1)
    s.pose("the largest k", I32, I32, YES, 0, MOST)
    s.order("k too large", "04 80 80 80 80 10" + I32 + I32, 3)
    s.order("refusal 6 also with k = 0", "04 00" + inf(600) + I32, 6)
    a, b = set_(RO, I32), set_(RW, I32)
    for step in range(3):
        # A pair of Sets with different access takes two checks, and each Tuple of two such pairs one more than twice that.
        need = 3 * 2 ** step - 1
        s.pose("checks of doubled Sets, one too few", a, b, CANCELLED, 0, need - 1)
        s.pose("checks of doubled Sets", a, b, YES, 0, need)
        a, b = tup(a, a), tup(b, b)
    s.revision()


@part()
def access(s):
    """Set and Map access is not looked at, Reference access is; the first access stays."""
    x, y = s.vars(2)
    s.pose("x gets a ReadOnly Set", x, set_(RO, y), YES, 1)
    s.pose("and meets a Mutable one", x, set_(RW, I32), YES, 1)
    s.shows("the first access stays", x, set_(RO, I32))
    s.pose("Maps", map_(RO, x, set_(RW, y)), map_(RW, x, set_(RO, I32)), YES)
    s.pose("inside a Reference", ref(MUT, set_(RW, y)), ref(MUT, set_(RO, y)), YES)
    s.pose("References", ref(MUT, x), ref(SHARED, x), NO)
    s.pose("inside a projection it counts", proj(set_(RO, I32), nom(0), 0), proj(set_(RW, I32), nom(0), 0), NO)
    s.pose("k: equal Sets take one check", tup(set_(RO, I32)), tup(set_(RO, I32)), YES, 0, 1)
    s.pose("k: Sets that differ in access take more", tup(set_(RO, I32)), tup(set_(RW, I32)), CANCELLED, 0, 2)
    s.revision()


@part()
def families(s):
    for name, fallback, takes, takes_not in (
            ("I32", 2, range(8), (8, 9, 10, 11, 31)), ("F64", 9, (8, 9), (0, 2, 7, 10, 11)),
            ("F32, which counts as integer", 8, (0, 7), (8, 9)),
            ("Never, which counts as integer", 10, (2,), (9, 10)), ("code 31", 31, (3,), (31, 9))):
        for code in takes:
            n = s.number(fallback)
            s.pose("fallback %s takes code %d" % (name, code), n, builtin(code), YES, 1)
        n = s.number(fallback)
        for code in takes_not:
            s.pose("fallback %s does not take code %d" % (name, code), builtin(code), n, NO)
        s.pose("fallback %s takes no Tuple" % name, n, tup(), NO)
        s.pose("fallback %s takes no Array" % name, arr(I32), n, NO)
        s.free(n)
    a, b, x, y = s.number(2), s.number(9), s.var(), s.var()
    s.pose("two families do not meet", a, b, NO)
    s.pose("nor the other way", b, a, NO)
    s.pose("a number variable joins a free one", a, x, YES, 1)
    s.pose("which is a number variable then", x, F64, NO)
    s.pose("and does not meet the other family", x, b, NO)
    s.pose("nor a Tuple", x, tup(I32), NO)
    s.pose("a free variable joins a number variable", y, b, YES, 1)
    s.pose("the family holds through the chain", y, I32, NO)
    s.pose("F32 for a floating one", y, F32, YES, 1)
    s.pose("I8 for an integer", a, I8, YES, 1)
    s.shows("all", tup(a, b, x, y), tup(I8, F32, I8, F32))
    s.pose("a circle with a number variable", s.number(2), I64, YES, 1)
    s.revision()


@part(alone=True)
def numeric_defaults(s):
    """Order 6 binds the end of each requested variable's chain, by rising id."""
    s.order("nothing requested", "06", "00")
    a, b, c, d = s.number(2), s.number(3), s.number(0), s.number(9)
    x, y = s.vars(2)
    s.pose("a joins b, whose fallback it overwrites", a, b, YES, 1)
    s.pose("c joins b too", c, b, YES, 1)
    s.pose("x is Array of d", x, arr(d), YES, 1)
    s.order("defaults", "06", "01")
    s.bound += 2
    s.shows("a's own fallback comes first", tup(a, b, c), tup(I32, I32, I32))
    s.shows("d", x, arr(F64))
    s.free(y)
    s.revision()
    s.order("again", "06", "00")
    s.revision()
    site = s.new_site()
    z = s.variable_at(site, 1)
    s.pose("a place of slot 1 before its request", z, y, YES, 1)
    s.order("the request of a bound variable answers its end", "01" + num(site) + "09", y)
    s.order("defaults", "06", "01")
    s.bound += 1
    s.shows("the default went to the end of the chain", tup(z, y), tup(F64, F64))
    other, end = s.variable_at(s.new_site(), 1), s.var()
    s.pose("another such place", other, end, YES, 1)
    s.order("its request", "01" + num(s.site - 1) + "02", end)
    s.pose("the end is no number variable", end, tup(), YES, 1)
    p, q = s.number(3), s.number(2)
    s.pose("q joins p, whose fallback it overwrites", q, p, YES, 1)
    s.order("defaults", "06", "01")
    s.bound += 1
    s.shows("q's fallback", tup(p, q), tup(I32, I32))
    s.order("a request of a variable with a value", "01" + num(site) + "02", F64)
    s.order("order 0 answers the variable itself", "00" + num(site) + "01", z)
    n = s.number(2)
    last = s.site
    s.order("a repeated request overwrites", "01" + num(last) + "1f", n)
    s.order("defaults", "06", "01")
    s.bound += 1
    s.shows("the last fallback", n, builtin(31))
    w, v = s.number(2), s.number(3)
    s.pose("v joins w", v, w, YES, 1)
    s.order("w is requested again", "01" + num(s.site - 1) + "04", w)
    s.order("defaults", "06", "01")
    s.bound += 1
    s.shows("the last request of the smaller id", v, builtin(4))
    s.revision()


@part(alone=True)
def never_defaults(s):
    """Order 7 binds what was deferred, number variables too."""
    s.order("nothing deferred", "07", "00")
    x, y, z, w = s.vars(4)
    n = s.number(2)
    s.order("defer x", "03" + x, "")
    s.order("defer a Tuple: nothing", "03" + tup(z), "")
    s.order("defer Unknown: nothing", "03" + U, "")
    s.order("defer a number variable", "03" + n, "")
    s.free(x, n)
    s.pose("x joins y", x, y, YES, 1)
    s.pose("w gets a value", w, I32, YES, 1)
    s.order("defer w: it has a value", "03" + w, "")
    s.order("defaults", "07", "01")
    s.bound += 2
    s.shows("x and y", tup(x, y), tup(NEVER, NEVER))
    s.shows("the number variable", n, NEVER)
    s.free(z)
    s.shows("w", w, I32)
    s.revision()
    s.order("again", "07", "00")
    s.order("numeric defaults have nothing left", "06", "00")
    a, b = s.vars(2)
    s.pose("a joins b", a, b, YES, 1)
    s.order("defer a: its end is b", "03" + a, "")
    s.pose("b gets a value", b, I8, YES, 1)
    s.order("so there is nothing to default", "07", "00")
    s.shows("a", a, I8)
    c, d = s.vars(2)
    s.pose("c joins d", c, d, YES, 1)
    s.order("defer c: its end d is free", "03" + c, "")
    s.order("defaults", "07", "01")
    s.bound += 1
    s.shows("c and d", tup(c, d), tup(NEVER, NEVER))
    s.revision()


@part()
def places(s):
    """Orders 0 and 1 share sites, order 2 has its own."""
    site = s.new_site()
    x = s.variable_at(site, 0)
    s.order("the same place", "00" + num(site) + "00", x)
    y = s.variable_at(site, 1)
    s.order("slot 1 is the number place", "01" + num(site) + "09", y)
    z = s.variable_at(site, 2)
    s.count += 1
    h = inf(s.count - 1)
    s.order("a hole at the same site", "02" + num(site), h)
    s.order("the same hole", "02" + num(site), h)
    s.pose("the hole gets a value", h, arr(z), YES, 1)
    s.order("the hole answers what it resolves to", "02" + num(site), arr(z))
    s.order("order 0 answers the variable", "00" + num(site) + "02", z)
    s.pose("y keeps its family", y, I32, NO)
    s.pose("y gets a value", y, F32, YES, 1)
    s.order("order 1 answers what it resolves to", "01" + num(site) + "02", F32)
    s.order("the largest site and slot", "00 ff ff ff ff 0f ff ff ff ff 0f", inf(s.count))
    s.count += 1
    s.revision()


@part()
def refusals(s):
    x = s.var()
    more = inf(600)
    for name, text, refusal in (
            ("0: ends early", "00 05", 1), ("0: leftover", "00 05 00 00", 1), ("0: a faulty site", "00 80 00 00", 3),
            ("0: a faulty slot", "00 05 80 80 80 80 10", 3),
            ("1: an unlisted code", "01 05 20", 2), ("1: a code is a byte", "01 05 82 00", 2), ("1: ends early", "01 05", 1),
            ("1: leftover", "01 05 02 00", 1),
            ("2: ends early", "02", 1), ("2: leftover", "02 05 05", 1), ("2: a faulty site", "02 ff 00", 3),
            ("3: ends early", "03", 1), ("3: leftover", "03 02 02", 1), ("3: not issued", "03" + more, 6),
            ("4: ends before k", "04", 1), ("4: ends after k", "04 09", 1), ("4: one term", "04 09 02", 1),
            ("4: three terms", "04 09 02 02 02", 1),
            ("4: k not shortest", "04 89 00 02 02", 3), ("4: an unlisted tag on the right", "04 09 02 14", 2),
            ("4: an unlisted access", "04 09" + x + "0b 02 02", 2), ("4: an unlisted range kind", "04 09" + x + "08 04 02", 2),
            ("4: an unlisted code", "04 09 04 20" + x, 2), ("4: members fall", "04 09" + struct(0, [], [(2, U), (1, U)]) + U, 5),
            ("4: members repeat, before their term", "04 09 02 0d 00 00 02 01 02 01 14", 5),
            ("4: not issued on the left, before the fault on the right", "04 09" + more + "14", 6),
            ("4: the fault on the left, before the id", "04 09 14" + more, 2),
            ("4: not issued, in a projection", "04 09 02" + proj(U, nom(0, [], [(1, more)]), 0), 6),
            ("4: not issued, before leftover bytes", "04 09" + more + "02 02", 6), ("4: the largest id", "04 09 02" + inf(MOST), 6),
            ("5: ends early", "05 09", 1), ("5: leftover", "05 02 00", 1), ("5: not issued", "05" + arr(more), 6),
            ("5: a tag is a byte", "05 82 00", 2), ("5: a count larger than the bytes", "05 05 ff ff ff ff 0f 02", 1),
            ("6: leftover", "06 00", 1), ("7: leftover", "07 00", 1), ("8: leftover", "08 00", 1),
            ("kind 21 alone", "15", 1), ("kind 23", "17", 2), ("kind 27", "1b 00", 2), ("a kind is a byte", "80 00", 2), ("kind 255", "ff", 2),
            ("empty", "", 1)):
        s.order(name, text, refusal)
    s.order("orders 9 to 20 take any id", "0b" + more + U, more)
    s.free(x)
    s.revision("no refused order had an effect")


@part()
def between(s):
    """Orders 9 to 20 leave the session as it was."""
    x = s.var()
    s.order("conflicts does not resolve", "09" + x + I32, "00")
    s.pose("x", x, I64, YES, 1)
    s.order("two projections conflict as wholes", "09" + proj(U, nom(0), 0) + proj(I8, nom(0), 0), "01")
    s.order("weakens", "0a" + set_(RW, x) + set_(RO, x), "01")
    s.order("weakens: the outer access only", "0a" + set_(RW, set_(RW, x)) + set_(RO, set_(RO, x)), "00")
    s.order("recover does not resolve", "0b" + tup(U, x) + tup(I8, U), tup(I8, x))
    s.order("instantiate: an inserted term is not followed",
            "0c" + subst([(0, 0, tup(gen(0, 1))), (0, 1, I8)]) + gen(0, 0), tup(gen(0, 1)))
    s.order("argument context", "0d" + NONE + params((0, 0)) + tup(gen(0, 0), x), tup(U, x))
    s.order("with_self", "0e" + "00" + x + self_(0), x)
    s.order("questions", "0f" + x, "00 00 00 01 01 00 00")
    s.order("resolved in", "10" + params() + x, "00")
    s.order("satisfies", "11" + nom(0, [x]) + nom(0, [x]) + I8, "01 01")
    s.order("family", "12" + params((0, 0)) + arr(gen(0, 0)) + NONE + seq(x), "01" + arr(x))
    s.order("family with another number of arguments", "12" + params((0, 0)) + U + NONE + seq(), "00")
    s.order("with_associated_types", "13" + proj(x, nom(0), 1) + nom(0, [], [(1, I8)]) + x, I8)
    s.order("normalise", "14" + seq(nom(0) + x + num(1) + seq() + I8) + proj(x, nom(0), 1), I8)
    s.shows("x", x, I64)
    s.revision()


# ---------------------------------------------------------------- Document 02: pairs in which access counts

# What stands around a part; the other parts are equal.
FRAMES = (
    ("Reference", lambda t: ref(MUT, t)), ("Tuple, first", lambda t: tup(t, I8)), ("Tuple, last", lambda t: tup(I8, t)),
    ("parameter", lambda t: fun([t], I8)), ("result", lambda t: fun([I8], t)), ("Iter", iter_), ("Range", lambda t: range_(2, t)),
    ("Array", arr), ("key", lambda t: map_(RO, t, I8)), ("value", lambda t: map_(RW, I8, t)), ("ReadOnly Set", lambda t: set_(RO, t)),
    ("Mutable Set", lambda t: set_(RW, t)), ("argument of a NativeObject", lambda t: native(1, [t])),
    ("member of a Struct", lambda t: struct(1, [I8], [(4, t)])), ("argument of an Enum", lambda t: enum(1, [t, I8])),
    ("member of a Trait", lambda t: trait(1, [], [(1, I8), (2, t)])))


@part()
def strict_clash(s):
    """A clash of access does not meet the parts."""
    x = s.var()
    s.strictly("a ReadOnly Set of x and a Mutable one of I32", set_(RO, x), set_(RW, I32), NO, 0, 9)
    s.free(x)
    s.strictly("the other way", set_(RW, I32), set_(RO, x), NO)
    s.strictly("Maps", map_(RO, x, I8), map_(RW, I32, I8), NO)
    s.strictly("Maps, the value", map_(RW, I8, x), map_(RO, I8, I32), NO)
    s.free(x)
    s.revision()
    s.strictly("what stands beside them is met", tup(x, set_(RO, I8)), tup(I32, set_(RW, I8)), NO, 1)
    s.shows("it was bound", x, I32)
    y, z = s.vars(2)
    s.strictly("before and behind", tup(y, map_(RO, I8, I8), z), tup(I8, map_(RW, I8, I8), I64), NO, 2)
    s.shows("both were bound", tup(y, z), tup(I8, I64))
    s.revision()


@part()
def strict_depths(s):
    """Set and Map access counts at every depth, and what it stands in does not matter."""
    for outer, around in FRAMES:
        for name, one, other in (("Sets", set_(RO, I32), set_(RW, I32)), ("Maps", map_(RO, I32, I8), map_(RW, I32, I8))):
            s.pose("%s: %s" % (outer, name), around(one), around(other), YES)
            s.strictly("%s: %s, strictly" % (outer, name), around(one), around(other), NO)
            s.strictly("%s: %s, strictly and the other way" % (outer, name), around(other), around(one), NO)
            s.strictly("%s: the same %s" % (outer, name), around(other), around(other), YES, 0, 1)
    for inner in (RO, RW):
        x = s.var()
        s.strictly("equal access, x inside", set_(RO, map_(RW, I8, set_(inner, x))), set_(RO, map_(RW, I8, set_(inner, I32))), YES, 1)
        s.shows("x", x, I32)
        s.strictly("one access differs", set_(RO, map_(RW, I8, set_(inner, x))), set_(RO, map_(RO, I8, set_(inner, I32))), NO)
    deep = set_(RO, I32), set_(RW, I32)
    for level in range(60):
        deep = tuple((arr, lambda t: set_(RW, t), lambda t: map_(RO, I8, t))[level % 3](term) for term in deep)
    s.pose("under 60 levels", *deep)
    s.strictly("under 60 levels, strictly", *deep, NO)
    s.revision()


@part()
def strict_shapes(s):
    """But for Set and Map, order 22 looks at what order 4 looks at."""
    x = s.var()
    for name, left, right in (
            ("Reference", ref(SHARED, I32), ref(MUT, I32)), ("Range", range_(0, I32), range_(1, I32)),
            ("Tuple", tup(I32), tup(I32, I32)), ("Function", fun([I32], I32), fun([], I32)), ("Builtin", I32, I64),
            ("declaration", struct(1), struct(2)), ("members", struct(1, [], [(1, I32)]), struct(1, [], [(2, I32)])),
            ("Struct and Enum", struct(1), enum(1)), ("Host", host(1), host(2)), ("Generic", gen(0, 0), gen(0, 1)),
            ("SelfType", self_(0), self_(1)), ("Array and Iter", arr(I32), iter_(I32)), ("Set and Map", set_(RO, I32), map_(RO, I32, I32)),
            ("projections, receiver", proj(I32, nom(0), 0), proj(I64, nom(0), 0)),
            ("projections are not entered", proj(x, nom(0), 0), proj(I32, nom(0), 0)), ("a projection and a type", proj(I32, nom(0), 0), I32)):
        s.both("%s: two that differ" % name, left, right, NO)
        s.both("%s: the same" % name, left, left)
    s.free(x)
    for outer, around in FRAMES:
        v = s.var()
        s.strictly("%s: a variable inside" % outer, around(v), around(I32), YES, 1)
        s.shows("%s: what it got" % outer, v, I32)
        s.both("%s: another type inside" % outer, around(v), around(I64), NO)
        w = s.var()
        s.both("%s: a circle" % outer, w, around(w), NO)
        s.both("%s: Unknown inside" % outer, w, around(U))
        s.both("%s: Error inside, with the variable itself" % outer, tup(w, E), w)
        s.free(w)
    x, y, z = s.vars(3)
    s.strictly("a circle of two", tup(x, y), tup(set_(RO, y), set_(RO, x)), NO, 1)
    s.shows("the last part was met first", y, set_(RO, x))
    s.strictly("of two variables the left is bound", z, x, YES, 1)
    s.shows("z", z, x)
    s.revision()


@part()
def strict_resolved(s):
    """Order 22 looks at the access that terms have once they are resolved. A binding keeps that of the term that it was bound to."""
    x, y, z, w = s.vars(4)
    s.pose("x gets a ReadOnly Set", x, set_(RO, y), YES, 1)
    s.pose("and meets a Mutable one, loosely", x, set_(RW, I32), YES, 1)
    s.strictly("strictly it is ReadOnly", x, set_(RO, I32), YES, 0, 1)
    s.strictly("and not Mutable", x, set_(RW, I32), NO)
    s.strictly("nor inside", arr(x), arr(set_(RW, y)), NO)
    s.strictly("z gets a Mutable Map", z, map_(RW, I8, x), YES, 1)
    s.strictly("which is not ReadOnly", z, map_(RO, I8, x), NO)
    s.pose("loosely it meets a ReadOnly one, though it was bound strictly", z, map_(RO, I8, set_(RW, I32)), YES)
    s.shows("and stays Mutable, with a ReadOnly Set", z, map_(RW, I8, set_(RO, I32)))
    s.strictly("a variable meets what stands for another", w, z, YES, 1)
    s.strictly("with its access", w, map_(RW, I8, set_(RO, I32)), YES, 0, 1)
    s.strictly("two variables that stand for Sets", tup(x, x), tup(set_(RO, I32), set_(RW, I32)), NO)
    a, b = s.vars(2)
    s.pose("a is Mutable", a, set_(RW, I32), YES, 1)
    s.strictly("a and x, strictly", a, x, NO)
    s.pose("a and x, loosely", a, x, YES)
    s.strictly("a and x, strictly again", a, x, NO)
    s.strictly("b gets what a stands for", b, a, YES, 1)
    s.shows("all", tup(a, b, x), tup(set_(RW, I32), set_(RW, I32), set_(RO, I32)))
    one, other = s.vars(2)
    s.strictly("bound in one pair, and met there again", tup(set_(RW, other), one, one), tup(one, set_(RO, I8), set_(RO, other)), NO, 2)
    s.shows("the last two parts agree, the first does not", tup(one, other), tup(set_(RO, I8), I8))
    s.revision()


@part()
def strict_turns(s):
    """Orders 4 and 22 in turn on the same terms: neither is remembered."""
    left, right = tup(set_(RO, I32), map_(RO, I8, I8)), tup(set_(RW, I32), map_(RW, I8, I8))
    for _ in range(3):
        s.pose("loosely", left, right, YES)
        s.strictly("strictly", left, right, NO)
        s.strictly("strictly, the same access", left, left, YES)
        s.pose("loosely, after a strict pair that is compatible", right, left, YES)
        s.strictly("cancelled at once", left, right, CANCELLED, 0, 0)
        s.pose("loosely, after a strict pair that was cancelled", left, right, YES)
        s.order("a refused order 22", "16 09" + left + right + "00", 1)
        s.pose("loosely, after a strict pair that was refused", left, right, YES)
        s.order("a refused order 4", "04 09" + left, 1)
        s.strictly("strictly, after a pair that was refused", left, right, NO)
    s.revision()


@part()
def strict_families(s):
    """Families, recovery and projections in strict pairs."""
    a, b, x = s.number(2), s.number(9), s.var()
    s.both("two families do not meet", a, b, NO)
    s.both("an integer takes no F64", a, F64, NO)
    s.both("nor a Set", set_(RO, I32), a, NO)
    s.strictly("an integer joins a free variable", a, x, YES, 1)
    s.both("which is a number variable then", x, F32, NO)
    s.strictly("a Set of it", set_(RW, x), set_(RW, I8), YES, 1)
    s.strictly("a Map of the other", map_(RO, b, x), map_(RO, F32, I8), YES, 1)
    s.shows("all", tup(a, b, x), tup(I8, F32, I8))
    n, y = s.number(2), s.var()
    for name, term in (("Unknown", U), ("Error", E)):
        s.both("%s and a variable" % name, term, y)
        s.both("%s and a Set" % name, set_(RO, I32), term)
        s.both("recovery before family: %s in a Set" % name, n, set_(RW, term))
        s.both("recovery before the circle: %s" % name, y, map_(RW, y, term))
        s.strictly("%s in a Set, access differs" % name, set_(RO, term), set_(RW, I32), NO)
        s.strictly("%s in a Map, the same access" % name, map_(RW, term, I8), map_(RW, I32, term), YES)
        s.strictly("%s beside a clash" % name, tup(term, set_(RO, I8)), tup(set_(RW, I8), set_(RW, I8)), NO)
    s.free(n, y)
    for name, around in (
            ("receiver", lambda t: proj(t, nom(0), 0)), ("argument", lambda t: proj(I8, nom(0), 0, t)),
            ("interface argument", lambda t: proj(I8, nom(0, [t]), 0)),
            ("interface member", lambda t: proj(I8, nom(0, [], [(3, t)]), 0))):
        v, w = s.vars(2)
        s.both("%s: access counts in a projection by either order" % name, around(set_(RO, I32)), around(set_(RW, I32)), NO)
        s.both("%s: equal projections" % name, around(set_(RO, I32)), around(set_(RO, I32)), YES, 1)
        s.strictly("%s: a variable gets the projection" % name, v, around(set_(RO, w)), YES, 1)
        s.both("%s: not entered" % name, v, around(set_(RO, I32)), NO)
        s.strictly("%s: the variable inside" % name, w, I32, YES, 1)
        s.both("%s: equal after resolving" % name, v, around(set_(RO, I32)), YES, 1)
        s.both("%s: another access inside" % name, v, around(set_(RW, I32)), NO)
        s.both("%s: a circle" % name, s.var(), around(inf(s.count - 1)), NO)
    s.revision()


@part()
def strict_checks(s):
    """k counts as in order 4. A clash of access takes the one check of its pair."""
    x, y = s.vars(2)
    s.strictly("k = 0", set_(RO, I32), set_(RO, I32), CANCELLED, 0, 0)
    s.strictly("k = 0, a clash", set_(RO, I32), set_(RW, I32), CANCELLED, 0, 0)
    s.strictly("k = 1, equal Sets", set_(RO, I32), set_(RO, I32), YES, 0, 1)
    s.strictly("k = 1, a clash of access", set_(RO, I32), set_(RW, I32), NO, 0, 1)
    s.pose("loosely these take a check more", set_(RO, I32), set_(RW, I32), CANCELLED, 0, 1)
    s.strictly("k = 1, Sets of different terms", set_(RO, x), set_(RO, I32), CANCELLED, 0, 1)
    s.free(x)
    s.strictly("k = 2", set_(RO, x), set_(RO, I32), YES, 1, 2)
    s.strictly("cancelled outranks the clash of access before", tup(y, set_(RO, I32)), tup(I8, set_(RW, I32)), CANCELLED, 0, 2)
    s.free(y)
    s.strictly("one check more", tup(y, set_(RO, I32)), tup(I8, set_(RW, I32)), NO, 1, 3)
    s.strictly("the largest k", set_(RO, I32), set_(RW, I32), NO, 0, MOST)
    z = s.var()
    s.strictly("cancelled after a binding, which stays", tup(set_(RO, I8), z), tup(set_(RW, I8), I64), CANCELLED, 1, 2)
    s.shows("z", z, I64)
    a, b = set_(RO, I32), set_(RW, I32)
    for step in range(4):
        # A pair of Sets with different access takes one check here, and each Tuple of two such pairs one more than twice that.
        need = 2 ** (step + 1) - 1
        s.strictly("checks of doubled Sets, one too few", a, b, CANCELLED, 0, need - 1)
        s.strictly("checks of doubled Sets", a, b, NO, 0, need)
        a, b = tup(a, a), tup(b, b)
    s.revision()


@part()
def strict_order_of_parts(s):
    """Parts are met last to first, as in order 4."""
    for name, left, right, value in (
            ("Tuple", lambda x: tup(x, x), tup(set_(RO, I32), set_(RW, I32)), set_(RW, I32)),
            ("Function", lambda x: fun([x], x), fun([set_(RO, I32)], set_(RW, I32)), set_(RW, I32)),
            ("Map", lambda x: map_(RO, x, x), map_(RO, set_(RO, I32), set_(RW, I32)), set_(RW, I32)),
            ("Struct", lambda x: struct(1, [x], [(1, x)]), struct(1, [set_(RO, I8)], [(1, set_(RW, I8))]), set_(RO, I8)),
            ("arguments", lambda x: struct(1, [x, x]), struct(1, [map_(RO, I8, I8), map_(RW, I8, I8)]), map_(RW, I8, I8)),
            ("members", lambda x: trait(1, [], [(1, x), (2, x)]), trait(1, [], [(1, set_(RO, I8)), (2, set_(RW, I8))]), set_(RW, I8))):
        x, y = s.vars(2)
        s.strictly(name, left(x), right, NO, 1)
        s.shows("the access met first", x, value)
        s.pose(name + ", loosely", left(y), right, YES, 1)
        s.shows("the same one", y, value)
    s.revision()


@part()
def strict_refusals(s):
    x = s.var()
    more = inf(600)
    for name, text, refusal in (
            ("ends before k", "16", 1), ("ends after k", "16 09", 1), ("one term", "16 09 02", 1), ("three terms", "16 09 02 02 02", 1),
            ("a Set that ends early", "16 09 02 0b 00", 1), ("a Map without its value", "16 09" + x + "0a 01 02", 1),
            ("leftover bytes", "16 09 02 02 00", 1), ("a kind is a byte", "96 00 09 02 02", 2), ("a number for the kind", "16 96 00", 3),
            ("an unlisted tag on the right", "16 09 02 14", 2), ("an unlisted access of a Set", "16 09" + x + "0b 02 02", 2),
            ("an unlisted access of a Map", "16 09 0a 02 02 02 02", 2), ("an access is a byte", "16 09 0b 80 00 02 02", 2),
            ("an unlisted access of a Reference", "16 09 00 02 02 02", 2), ("an unlisted range kind", "16 09" + x + "08 04 02", 2),
            ("an unlisted code", "16 09 04 20" + x, 2),
            ("k not shortest", "16 89 00 02 02", 3), ("k too large", "16 80 80 80 80 10 02 02", 3), ("a faulty id", "16 09 01 80 00 02", 3),
            ("201 levels on the left", "16 09" + arr(x, 200) + I32, 4), ("201 levels on the right", "16 09" + I32 + arr(x, 200), 4),
            ("201 levels of Sets", "16 09" + "0b 01" * 200 + x + I32, 4), ("the level before an unlisted tag", "16 09" + "0b 01" * 200 + "14", 4),
            ("members fall", "16 09" + struct(0, [], [(2, U), (1, U)]) + U, 5),
            ("members repeat, before their term", "16 09 02 0d 00 00 02 01 02 01 14", 5),
            ("not issued on the left, before the fault on the right", "16 09" + more + "14", 6),
            ("the fault on the left, before the id", "16 09 14" + more, 2), ("not issued, in a Set", "16 09 02" + set_(RO, more), 6),
            ("not issued, in a projection", "16 09 02" + proj(U, nom(0, [], [(1, more)]), 0), 6), ("not issued, k = 0", "16 00" + more + I32, 6),
            ("not issued, before leftover bytes", "16 09" + more + "02 02", 6), ("the largest id", "16 09 02" + inf(MOST), 6),
            ("kind 21 with these fields", "15 09 02 02", 1), ("kind 21 with the fields of order 1", "15 09 02", 1), ("kind 23", "17 09 02 02", 2),
            ("kind 23 alone", "17", 2), ("kind 24", "18", 2), ("kind 28", "1c 09 02 02", 2), ("kind 22 + 128", "96 09 02 02", 2)):
        s.order(name, text, refusal)
    s.strictly("200 levels", "0b 00" * 199 + x, "0b 00" * 199 + I32, YES, 1)
    s.strictly("200 levels, the innermost access differs", "0b 00" * 198 + "0b 01" + x, "0b 00" * 199 + I32, NO)
    s.revision("no refused order had an effect")


@part(alone=True)
def strict_nodes(s):
    """Order 22 keeps nodes as order 4: all of them where it binds, none where it binds nothing."""
    x, *free = s.vars(6)
    wide = tup(*[U] * 93)
    s.strictly("2,048 nodes", tup(*[U] * 2046), U)
    s.strictly("which are not kept", tup(*[U] * 2046), U)
    for name, text, refusal in (("", x, 7), (", leftover bytes before 7", x + "00", 1), (", an id that is not issued before 7", inf(600), 6)):
        s.order("2,049 nodes" + name, "16 00" + tup(*[U] * 2047) + text, refusal)
    s.strictly("a compatible pair that binds keeps its nodes", tup(free[0], wide), tup(I32, U), YES, 1)
    s.strictly("an incompatible one too", tup(free[1], set_(RO, I32), wide), tup(I32, set_(RW, I32), U), NO, 1)
    s.strictly("a cancelled one too", tup(wide, set_(RO, I32), free[2]), tup(U, set_(RW, I32), I32), CANCELLED, 1, 2)
    s.strictly("a compatible pair that binds nothing keeps none", tup(*[U] * 399), U)
    s.strictly("nor does a clash of access", set_(RO, tup(*[free[3]] * 399)), set_(RW, tup(*[I32] * 399)), NO)
    s.strictly("nor a clash of access beside Unknown", tup(set_(RO, I8), *[U] * 399), tup(set_(RW, I8), *[I8] * 399), NO)
    s.strictly("nor a cancelled one", tup(*[set_(RO, I8)] * 199), tup(*[set_(RW, I8)] * 199), CANCELLED, 0, 100)
    s.order("nor a refused one", "16 09" + tup(free[3], *[U] * 99) + inf(600), 6)
    s.free(free[3])
    space_left(s, "what was kept")
    left = 2048 - s.kept
    s.order("one node too many, a clash of access", "16 09" + set_(RO, tup(*[U] * (left - 3))) + set_(RW, U), 7)
    s.order("one node too many, which would bind a variable", "16 09" + tup(free[3], tup(*[U] * (left - 5))) + tup(I32, U), 7)
    s.free(free[3])
    s.strictly("the space left, a clash of access", set_(RO, tup(*[U] * (left - 4))), set_(RW, U), NO)
    s.strictly("the space left, which binds", tup(free[3], tup(*[U] * (left - 6))), tup(I32, U), YES, 1)
    s.order("no node is left for order 22", "16 09" + x + U, 7)
    s.order("nor for order 5", "05" + x, 7)
    s.order("leftover bytes before 7", "16 09" + x + U + "00", 1)
    s.order("defaults have no nodes", "06", "00")
    s.revision()


@part(alone=True)
def strict_512(s):
    """Order 22 issues no variable, so that it is never refused with 8."""
    row = s.vars(512)
    s.order("a 513th variable", "00" + num(s.new_site()) + "00", 8)
    s.strictly("the last variable", row[511], set_(RW, row[0]), YES, 1)
    s.strictly("another access", row[511], set_(RO, row[0]), NO)
    s.order("variable 512", "16 09" + inf(512) + I32, 6)
    s.revision()


@part(alone=True)
def strict_lattice(s):
    """One satisfied strict pair for each cell, 1,000 times eight nodes; then pairs that are never satisfied strictly."""
    x, y = s.vars(2)
    s.strictly("the first cell", set_(RO, x), set_(RO, tup(y, map_(RW, I8, I8))), YES, 1)
    for cell in range(2, 1001):
        s.strictly("cell %d" % cell, set_(RO, x), set_(RO, tup(y, map_(RW, I8, I8))), YES)
    for _ in range(120):
        s.strictly("another access", set_(RW, x), set_(RO, tup(y, map_(RW, I8, I8))), NO)
        s.strictly("another access inside", set_(RO, x), set_(RO, tup(y, map_(RO, I8, I8))), NO)
        s.pose("loosely", set_(RW, x), set_(RO, tup(y, map_(RO, I8, I8))), YES)
    s.free(y)
    s.revision()
    space_left(s, "the first cell's nodes are kept")


@part(alone=True)
def strict_repeated(s):
    """A compatible pair posed again, by either order: strictly compatible ones are loosely so, and not the other way round."""
    x, y, z = s.vars(3)
    s.strictly("strictly", tup(x, set_(RO, y)), tup(set_(RW, I8), set_(RO, I32)), YES, 2)
    for _ in range(3):
        s.both("again", tup(x, set_(RO, y)), tup(set_(RW, I8), set_(RO, I32)))
    s.pose("loosely", z, map_(RO, I8, set_(RO, I8)), YES, 1)
    s.pose("another access", z, map_(RW, I8, set_(RW, I8)), YES)
    for _ in range(3):
        s.pose("again loosely", z, map_(RW, I8, set_(RW, I8)), YES)
        s.strictly("again strictly", z, map_(RW, I8, set_(RW, I8)), NO)
    s.shows("all", tup(x, y, z), tup(set_(RW, I8), I32, map_(RO, I8, set_(RO, I8))))
    a, _, b, c = s.vars(4)
    for turn, bound in (("first", 1), ("second", 1), ("third", 0)):
        s.strictly("a pair with Unknown, the %s time" % turn, tup(a, a), tup(set_(RO, tup(b, c)), set_(RO, tup(U, I32))), YES, bound)
    s.strictly("with another access its parts are not met", tup(a, a), tup(set_(RO, tup(b, c)), set_(RW, tup(U, I64))), NO)
    s.shows("a, b and c", tup(a, b, c), tup(set_(RO, tup(b, I32)), b, I32))
    s.revision()
    space_left(s, "three pairs that bound, one of them twice")


# ---------------------------------------------------------------- Document 02: literals known as a range

# Values at the ends of the types and one beyond, the codes of the types that hold it, and of those that hold -1 as well. 0 to 3 are I8 to I64, 4 to 7 are
# U8 to U64. Where no type holds a value, a range with it is refused. One beyond U64 is no bound, and -1 is one beyond all four unsigned types.
ENDS = (
    (-2 ** 64 + 1, "", ""), (-2 ** 63 - 1, "", ""), (-2 ** 63, "3", "3"), (-2 ** 63 + 1, "3", "3"), (-2 ** 32, "3", "3"), (-2 ** 31 - 1, "3", "3"),
    (-2 ** 31, "23", "23"), (-32769, "23", "23"), (-32768, "123", "123"), (-129, "123", "123"), (-128, "0123", "0123"), (-1, "0123", "0123"),
    (0, "01234567", "0123"), (127, "01234567", "0123"), (128, "1234567", "123"), (255, "1234567", "123"), (256, "123567", "123"),
    (32767, "123567", "123"), (32768, "23567", "23"), (65535, "23567", "23"), (65536, "2367", "23"), (2 ** 31 - 1, "2367", "23"), (2 ** 31, "367", "3"),
    (2 ** 32 - 1, "367", "3"), (2 ** 32, "37", "3"), (2 ** 63 - 1, "37", "3"), (2 ** 63, "7", ""), (2 ** 64 - 1, "7", ""))
# Ranges with ends of two types.
RANGES = (
    (-128, 127, "0123"), (-129, 127, "123"), (-128, 128, "123"), (-32768, 32767, "123"), (-32769, 32767, "23"), (-32768, 32768, "23"),
    (-2 ** 31, 2 ** 31 - 1, "23"), (-2 ** 31 - 1, 2 ** 31 - 1, "3"), (-2 ** 31, 2 ** 31, "3"), (-2 ** 63, 2 ** 63 - 1, "3"), (-2 ** 63 - 1, 2 ** 63 - 1, ""),
    (-2 ** 63, 2 ** 63, ""), (127, 128, "1234567"), (255, 256, "123567"), (2 ** 63 - 1, 2 ** 63, "7"), (2 ** 63, 2 ** 64 - 1, "7"),
    (-2 ** 64 + 1, 2 ** 64 - 1, ""))
FALLING = ((1, 0), (0, -1), (-4, -5), (5, 4), (1, -1), (128, 127), (-128, -129), (2 ** 32, 1), (2 ** 32, 2 ** 32 - 1), (-2 ** 32 + 1, -2 ** 32), (2 ** 63, 2 ** 63 - 1),
           (2 ** 64 - 1, 2 ** 64 - 2), (2 ** 64 - 1, 2 ** 63), (-2 ** 63, -2 ** 63 - 1), (2 ** 64 - 1, -2 ** 64 + 1))
FALLBACKS = (2, 9, 8, 10, 31, 4)


def admits_just(s, fallback, low, high, held):
    """The range takes just these types and no term; where there are none it is refused."""
    name, held = "%d .. %d" % (low, high), set(map(int, held))
    if not held:
        s.order("no type for %s" % name, ranged(s.new_site(), fallback, low, high), 13)
        return
    n = s.range(fallback, low, high)
    for code in range(12):
        if code not in held:
            s.pose("%s does not take code %d" % (name, code), *(n, builtin(code))[::(-1) ** s.count], NO)
    s.pose("%s takes no Tuple" % name, n, tup(), NO)
    s.free(n)
    for code in sorted(held):
        s.pose("%s takes code %d" % (name, code), s.range(fallback, low, high), builtin(code), YES, 1)


@part(alone=True)
def range_ends(s):
    """Each end of a type as both bounds, and as low or high beside zero."""
    for at, (value, held, _) in enumerate(ENDS):
        admits_just(s, FALLBACKS[at % 6], value, value, held)
        admits_just(s, FALLBACKS[(at + 1) % 6], min(value, 0), max(value, 0), held)
    s.revision()


@part(alone=True)
def range_signed_ends(s):
    """Each end of a type as low or high beside -1, and with an end of another type."""
    for at, (value, _, held) in enumerate(ENDS):
        admits_just(s, FALLBACKS[at % 6], min(value, -1), max(value, -1), held)
    for at, (low, high, held) in enumerate(RANGES):
        admits_just(s, FALLBACKS[at % 6], low, high, held)
    s.revision()


@part()
def range_bounds(s):
    """Refusal 13, and minus zero."""
    site = num(s.new_site())
    for low, high in FALLING:
        s.order("%d above %d" % (low, high), ranged(s.site, 2, low, high), 13)
    for sign in (2, 3, 127, 128, 129, 255):
        s.order("sign %d below" % sign, "15" + site + "02 %02x 00 00 00 00 00" % sign, 13)
        s.order("sign %d above" % sign, "15" + site + "02 00 00 00 %02x 00 00" % sign, 13)
    s.order("both signs over 1", "15" + site + "02 ff 00 01 02 00 00", 13)
    s.order("a sign over 1 and low above high", "15" + site + "02 02 00 05 00 00 01", 13)
    n = inf(s.count)
    s.order("none of them issued the variable", "05" + n, 6)
    s.count += 1
    s.order("minus zero below", "15" + site + "02 01 00 00 00 00 05", n)
    s.pose("it takes U8", n, builtin(4), YES, 1)
    for name, text in (("minus zero above", "00 00 00 01 00 00"), ("minus zero twice", "01 00 00 01 00 00"), ("minus zero below, zero above", "01 00 00 00 00 00")):
        n = inf(s.count)
        s.count += 1
        s.order(name, "15" + num(s.new_site()) + "02" + text, n)
        s.pose("it takes U64", n, builtin(7), YES, 1)
    s.order("a negative number below minus zero", "15" + num(s.site) + "02 01 00 01 01 00 00", builtin(7))
    s.order("1 above minus zero", "15" + num(s.site) + "02 00 00 01 01 00 00", 13)
    s.order("minus zero above -1", "15" + num(s.site) + "02 01 00 00 01 00 01", 13)
    s.order("minus zero above minus the largest", "15" + num(s.site) + "02 01 00 00 01 ff ff ff ff 0f ff ff ff ff 0f", 13)
    s.order("the high half counts", "15" + num(s.site) + "02 00 01 00 00 00 ff ff ff ff 0f", 13)
    s.order("and is the first", "15" + num(s.site) + "02 00 00 01 00 01 00", builtin(7))
    for name, text, held in (("-1 to minus zero", "01 00 01 01 00 00", "0123"), ("minus zero to 255", "01 00 00 00 00 ff 01", "1234567"),
                             ("minus zero to the largest", "01 00 00 00 ff ff ff ff 0f ff ff ff ff 0f", "7"),
                             ("-2^63 to minus zero", "01 80 80 80 80 08 00 01 00 00", "3")):
        n = inf(s.count)
        s.count += 1
        s.order(name, "15" + num(s.new_site()) + "02" + text, n)
        for code in sorted(set(range(10)) - set(map(int, held))):
            s.pose("%s: not code %d" % (name, code), n, builtin(code), NO)
        s.pose("%s: code %s" % (name, held[0]), n, builtin(int(held[0])), YES, 1)
    s.revision()


@part()
def range_refusals(s):
    """The fields are read first; 13 comes behind leftover bytes."""
    for name, text, refusal in (
            ("ends before the site", "15", 1), ("ends before the fallback", "15 09", 1), ("ends before the sign", "15 09 02", 1),
            ("ends behind the sign", "15 09 02 00", 1), ("ends behind a half", "15 09 02 00 00", 1), ("ends behind a bound", "15 09 02 00 00 00", 1),
            ("ends behind the second sign", "15 09 02 00 00 00 00", 1), ("ends before the last half", "15 09 02 00 00 00 00 00", 1),
            ("ends in the last half", "15 09 02 00 00 00 00 00 80", 1), ("leftover bytes", "15 09 02 00 00 00 00 00 05 00", 1),
            ("leftover bytes before a sign over 1", "15 00 02 02 00 00 00 00 01 00", 1), ("leftover bytes before low above high", "15 00 02 00 00 02 00 00 01 00", 1),
            ("leftover bytes before no type", "15 00 02 01 00 01 00 80 80 80 80 08 00 00", 1), ("ends early behind a sign over 1", "15 00 02 02 00 00 00 00", 1),
            ("an unlisted fallback", "15 09 20 00 00 00 00 00 05", 2), ("a fallback is a byte", "15 09 82 00 00 00 00 00 00 05", 2),
            ("an unlisted fallback before a sign over 1", "15 09 ff 02 00 00 00 00 05", 2), ("an unlisted fallback, and nothing behind", "15 09 20", 2),
            ("a site not shortest", "15 89 00 02 00 00 00 00 00 05", 3), ("a site too large", "15 80 80 80 80 10 02 00 00 00 00 00 05", 3),
            ("a half not shortest", "15 09 02 00 80 00 00 00 00 05", 3), ("the second", "15 09 02 00 00 80 00 00 00 05", 3),
            ("the third", "15 09 02 00 00 00 00 80 00 05", 3), ("the last", "15 09 02 00 00 00 00 00 85 00", 3),
            ("a half too large", "15 09 02 00 00 00 00 80 80 80 80 10 00", 3), ("the last too large", "15 09 02 00 00 00 00 00 80 80 80 80 10", 3),
            ("a faulty half behind a sign over 1", "15 00 02 02 80 00 00 00 01", 3), ("a faulty half behind low above high", "15 00 02 00 00 05 00 00 80 00", 3),
            ("a sign is a byte", "15 09 02 80 00 00 00 00 05", 13), ("so is the second", "15 09 02 00 00 00 80 00 05", 13),
            ("a sign of two bytes", "15 09 02 81 00 00 00 00 00 05", 1), ("kind 21 + 128", "95 09 02 00 00 00 00 00 05", 2),
            ("a number for the kind", "15 95 00", 3)):
        s.order(name, text, refusal)
    n = s.range(4, 0, 5)
    for name, text, refusal in (("low above high", ranged(s.site, 2, 5, 4), 13), ("a fault", ranged(s.site, 2, -7, 9) + "00", 1), ("no type", ranged(s.site, 2, -1, 2 ** 63), 13)):
        s.order(name + ", for an issued place", text, refusal)
    s.order("the largest site", "15 ff ff ff ff 0f 1f 00 ff ff ff ff 0f ff ff ff ff 0f 00 ff ff ff ff 0f ff ff ff ff 0f", inf(s.count))
    s.count += 1
    s.pose("which takes U64 alone", inf(s.count - 1), builtin(3), NO)
    s.pose("U64", inf(s.count - 1), builtin(7), YES, 1)
    s.pose("the refused requests had no effect", n, builtin(4), YES, 1)
    s.revision()


@part()
def range_places(s):
    """The place of order 21 is that of order 1; it answers what the variable resolves to."""
    n = s.range(2, 0, 200)
    site = num(s.site)
    s.order("order 0 at slot 1", "00" + site + "01", n)
    s.order("order 1", "01" + site + "02", n)
    s.order("order 21", ranged(s.site, 2, 0, 200), n)
    x, hole = s.variable_at(s.site, 0), inf(s.count)
    s.count += 1
    s.order("a hole of this site is another", "02" + site, hole)
    s.pose("they do not meet", tup(x, hole), tup(tup(), arr(U)), YES, 1)
    s.pose("n joins a free variable", n, s.var(), YES, 1)
    end = inf(s.count - 1)
    s.order("a request answers the end", ranged(s.site - 1, 2, 0, 200), end)
    s.pose("U8 for the end", end, builtin(4), YES, 1)
    s.order("a request answers the value", ranged(s.site - 1, 2, 0, 100), builtin(4))
    s.order("also with a range that does not admit it", ranged(s.site - 1, 2, -1, 100), builtin(4))
    s.order("order 0 answers the variable", "00" + site + "01", n)
    m = s.variable_at(s.new_site(), 1)
    s.pose("a place of slot 1 bound to a term", m, arr(I32), YES, 1)
    s.again("its request", 0, 2, 0, 5, arr(I32))
    s.shows("stays", m, arr(I32))
    m = s.variable_at(s.new_site(), 1)
    s.again("a place of slot 1 that is free", 0, 2, 0, 200, m)
    s.pose("has the range", m, I8, NO)
    s.pose("and takes U8", m, builtin(4), YES, 1)
    m, x = s.variable_at(s.new_site(), 1), s.var()
    s.pose("a free variable ends at a place of slot 1", x, m, YES, 1)
    s.again("which is requested then", 1, 2, -1, 0, m)
    s.pose("the range is that of both", x, builtin(4), NO)
    s.pose("I64", x, I64, YES, 1)
    s.revision()


@part()
def range_joins(s):
    """Joining leaves the types that both admit, at the variable left free."""
    for name, one, other, held in (
            ("signed and up to 200", (-1, 100), (0, 200), "123"), ("the same", (0, 200), (0, 200), "1234567"), ("one inside the other", (0, 10), (-5, 300), "123"),
            ("I64 alone", (-1, 0), (2 ** 31, 2 ** 31), "3"), ("U64 alone", (0, 0), (2 ** 63, 2 ** 63), "7")):
        held = set(map(int, held))
        for turn in (1, -1):
            a, b = s.range(2, *one), s.range(3, *other)
            s.pose(name, *(a, b)[::turn], YES, 1)
            for variable in (a, b):
                for code in sorted(set(range(10)) - held):
                    s.pose("%s: not code %d" % (name, code), variable, builtin(code), NO)
            s.pose("%s: the last of them" % name, b, builtin(max(held)), YES, 1)
    minus, large, plain, real = s.range(2, -1, 0), s.range(2, 2 ** 63, 2 ** 63), s.number(2), s.number(9)
    for left, right in ((minus, large), (large, minus), (minus, real), (real, minus)):
        s.pose("nothing is admitted by both", left, right, NO)
    s.free(minus, large, plain, real)
    s.pose("a plain integer joins a range", plain, minus, YES, 1)
    s.pose("which keeps its types", plain, builtin(4), NO)
    s.pose("and does not meet the other range", large, plain, NO)
    s.pose("nor a float", real, plain, NO)
    s.pose("I16 is left", plain, builtin(1), YES, 1)
    a, b, c, x = s.range(2, 0, 200), s.number(8), s.range(2, -1, 0), s.var()
    s.pose("a range joins a plain one", a, b, YES, 1)
    s.pose("the plain one is narrowed", b, I8, NO)
    s.pose("a third", b, c, YES, 1)
    for code in (0, 4, 5, 6, 7):
        s.pose("what all three admit", a, builtin(code), NO)
    s.pose("a free variable takes it over", c, x, YES, 1)
    s.pose("not U8", x, builtin(4), NO)
    s.pose("nor F64", x, F64, NO)
    s.pose("nor an Array", x, arr(a), NO)
    s.pose("I16", x, builtin(1), YES, 1)
    s.shows("all", tup(a, b, c, x), tup(*[builtin(1)] * 4))
    y, d = s.var(), s.range(2, 0, 200)
    s.pose("a free variable joins a range", y, d, YES, 1)
    s.pose("not I8", y, I8, NO)
    s.pose("U8", y, builtin(4), YES, 1)
    e, f = s.range(2, 0, 200), s.range(2, -1, 0)
    s.pose("parts that are met later are held to it", tup(e, e), tup(builtin(4), f), NO, 1)
    s.shows("the last part was met first", tup(e, f), tup(f, f))
    s.revision()


# Two ranges, and the types that both admit. A range that admits I8, I16 or I32 admits I64 too, and one that admits U8, U16 or U32 admits I64 and U64: so of
# the eight types only I64 and U64 can be left alone, and U64 only where it was alone before.
LEFT_BY_JOINS = (
    ((-1, 0), (0, 127), "0123"), ((-1, 0), (0, 128), "123"), ((-1, 0), (0, 32768), "23"), ((-1, 0), (0, 2 ** 31), "3"), ((-1, 0), (2 ** 63 - 1, 2 ** 63 - 1), "3"),
    ((0, 127), (0, 127), "01234567"), ((0, 127), (0, 128), "1234567"), ((0, 255), (0, 256), "123567"), ((0, 32767), (0, 32768), "23567"),
    ((0, 65535), (0, 65536), "2367"), ((0, 2 ** 31 - 1), (0, 2 ** 31), "367"), ((0, 2 ** 32 - 1), (0, 2 ** 32), "37"), ((0, 2 ** 32), (2 ** 63, 2 ** 63), "7"),
    ((-2 ** 63, 0), (0, 2 ** 63 - 1), "3"), ((-2 ** 31, 0), (0, 65535), "23"), ((2 ** 63, 2 ** 63), (2 ** 64 - 1, 2 ** 64 - 1), "7"))


@part(alone=True)
def range_joins_left(s):
    """Joins that leave just these types, by either order, from either side."""
    for at, (one, other, held) in enumerate(LEFT_BY_JOINS):
        held = sorted(map(int, held))
        for turn in (1, -1):
            a, b = s.range(2, *one), s.range(9, *other)
            s.pose("%s and %s" % (one, other), *(a, b)[::turn], YES, 1, kind=("04", "16")[at % 2])
            for code in sorted(set(range(10)) - set(held)):
                s.pose("not code %d" % code, *(a, builtin(code))[::turn], NO)
            s.pose("code %d" % held[min(turn, 0)], (a, b)[at % 2], builtin(held[min(turn, 0)]), YES, 1)
    s.revision()


@part()
def range_joins_empty(s):
    """Joins that leave nothing change nothing, by either order, from either side."""
    minus, least, large, largest, few, real, plain = (
        s.range(2, -1, 0), s.range(2, -2 ** 63, -2 ** 63), s.range(2, 2 ** 63, 2 ** 63), s.range(2, 2 ** 64 - 1, 2 ** 64 - 1), s.range(9, 0, 200), s.number(9), s.number(8))
    for name, left, right in (("signed and 2^63", minus, large), ("-2^63 and the largest", least, largest), ("signed and a float", minus, real),
                              ("2^63 and a float", large, real), ("up to 200 and a float", few, real), ("plain and a float", plain, real)):
        s.both(name, left, right, NO)
        s.both(name + ", turned", right, left, NO)
        s.both(name + ", in a Tuple", tup(left), tup(right), NO)
    s.free(minus, least, large, largest, few, real, plain)
    x, y = s.vars(2)
    s.pose("behind free variables", tup(x, y), tup(minus, large), YES, 2)
    s.both("2^63 and signed", y, x, NO)
    s.pose("plain and signed", plain, x, YES, 1)
    s.both("the plain one admits no more than signed types", plain, large, NO)
    s.both("nor a float, from the other side", real, plain, NO)
    s.pose("the range is as before", few, builtin(4), YES, 1)
    s.pose("so are signed types", minus, I8, YES, 1)
    s.pose("and 2^63", large, builtin(7), YES, 1)
    s.pose("and the float", real, F32, YES, 1)
    s.shows("all", tup(x, y, plain, few, real), tup(I8, builtin(7), I8, builtin(4), F32))
    s.revision()


@part(alone=True)
def range_defaults(s):
    """A default where a range took part: the fallback if admitted, else the first admitted one.

    Ranges without I32 admit I64, or U64 alone: the other five of the list are taken as fallbacks only."""
    for low, high, fallback, code in (
            (0, 200, 4, 4), (0, 200, 0, 2), (0, 200, 1, 1), (0, 200, 9, 2), (0, 200, 8, 2), (0, 200, 10, 2), (0, 200, 31, 2), (-1, 200, 4, 2), (-1, 200, 7, 2),
            (0, 2 ** 31, 2, 3), (0, 2 ** 31, 6, 6), (0, 2 ** 31, 7, 7), (0, 2 ** 32, 6, 3), (0, 2 ** 32, 2, 3), (0, 2 ** 63, 3, 7), (0, 2 ** 63, 9, 7),
            (-2 ** 63, 0, 7, 3), (-128, 127, 0, 0), (-129, 127, 0, 2), (0, 255, 4, 4), (0, 256, 4, 2), (0, 65535, 5, 5), (0, 65536, 5, 2), (-1, 0, 5, 2),
            (-32768, 0, 1, 1), (-32769, 0, 1, 2)) + tuple((0, 100, code, code) for code in range(8)):
        n = s.range(fallback, low, high)
        s.defaults(1)
        s.shows("%d .. %d with fallback %d" % (low, high, fallback), n, builtin(code))
    s.order("no range: the fallback", "06", NO)
    plain = [s.number(code) for code in (0, 8, 10, 31)]
    s.defaults(4)
    s.shows("plain ones take any fallback", tup(*plain), tup(I8, F32, NEVER, builtin(31)))
    s.revision()


@part(alone=True)
def range_defaults_of_chains(s):
    """The variable whose turn it is gives the fallback; what is admitted is read at the end of its chain."""
    def joined(comment, left, right, wanted):
        s.pose(comment, left, right, YES, 1)
        s.defaults(1)
        s.shows(comment, tup(left, right), tup(builtin(wanted), builtin(wanted)))
    joined("plain U8, and signed", s.number(4), s.range(2, -1, 0), 2)
    joined("plain I8, and up to 200", s.number(0), s.range(2, 0, 200), 2)
    joined("plain I16, and up to 200: its own fallback", s.number(1), s.range(2, 0, 200), 1)
    joined("up to 200 with U16, and plain U8", s.range(5, 0, 200), s.number(4), 5)
    joined("up to 200 with I8, and plain U8: not the end's fallback", s.range(0, 0, 200), s.number(4), 2)
    joined("plain F32, and a range", s.number(8), s.range(2, 0, 200), 2)
    joined("plain Never, and a range", s.number(10), s.range(4, 0, 200), 2)
    joined("a range, and a free variable", s.range(0, 0, 200), s.var(), 2)
    joined("a free variable, and a range", s.var(), s.range(0, 0, 200), 2)
    joined("two ranges: what both admit", s.range(4, 0, 200), s.range(5, -1, 0), 2)
    joined("two ranges: the fallback of the first", s.range(1, 0, 200), s.range(3, -1, 0), 1)
    joined("two ranges: U64", s.range(2, 0, 0), s.range(2, 2 ** 63, 2 ** 63), 7)
    a, b = s.range(5, 0, 10), s.range(4, 0, 10)
    joined("the larger id is bound: its fallback goes over to the smaller", b, a, 4)
    a, b, c = s.number(0), s.range(5, 0, 10), s.range(4, 0, 200)
    s.pose("three: the last is left free", a, b, YES, 1)
    s.pose("by a chain", b, c, YES, 1)
    s.defaults(1)
    s.shows("I8 does not hold 200", tup(a, b, c), tup(I32, I32, I32))
    a, b, c = s.number(4), s.var(), s.range(0, -1, 0)
    s.pose("the plain one ends at a free one", a, b, YES, 1)
    s.pose("which is joined to a range afterwards", b, c, YES, 1)
    s.defaults(1)
    s.shows("U8 is not admitted", tup(a, b, c), tup(I32, I32, I32))
    n, m = s.range(2, 0, 200), s.range(4, 0, 200)
    s.pose("one of them is U8", n, builtin(4), YES, 1)
    s.defaults(1)
    s.shows("the other takes its own", tup(n, m), tup(builtin(4), builtin(4)))
    s.defaults(0)
    s.revision()


@part(alone=True)
def range_repeats(s):
    """A repeated request overwrites fallback and types of that variable alone."""
    n = s.range(2, 0, 200)
    s.order("order 1 makes it plain", "01" + num(s.site) + "02", n)
    s.pose("it takes I8", n, I8, YES, 1)
    n = s.number(2)
    s.again("order 21 over order 1", 0, 0, 0, 200, n)
    s.pose("I8 is not admitted", n, I8, NO)
    s.defaults(1)
    s.shows("the default", n, I32)
    n = s.number(9)
    s.again("a range over a float", 0, 9, 0, 200, n)
    s.pose("F64 is not admitted", n, F64, NO)
    s.defaults(1)
    s.shows("the default", n, I32)
    n = s.range(4, 0, 200)
    s.order("a float over a range", "01" + num(s.site) + "09", n)
    s.pose("U8 is not admitted", n, builtin(4), NO)
    s.defaults(1)
    s.shows("the default", n, F64)
    n = s.range(4, 0, 200)
    s.again("a range over a range: wider", 0, 0, 0, 5, n)
    s.pose("it takes I8", n, I8, YES, 1)
    n = s.range(4, 0, 5)
    s.again("narrower, with another fallback", 0, 4, -1, 5, n)
    s.pose("U8 is not admitted", n, builtin(4), NO)
    s.defaults(1)
    s.shows("the default", n, I32)
    a, b = s.range(0, 0, 200), s.number(2)
    s.pose("a range joins a plain one", a, b, YES, 1)
    s.order("the plain one is requested again", "01" + num(s.site) + "02", b)
    s.pose("the end is plain again", a, I8, YES, 1)
    a, b = s.range(0, 0, 200), s.range(4, -1, 200)
    s.pose("two ranges", a, b, YES, 1)
    s.again("the end is requested again", 0, 4, 0, 5, b)
    s.pose("nothing is joined anew", a, builtin(4), YES, 1)
    a, b = s.number(2), s.number(2)
    s.pose("two plain ones", a, b, YES, 1)
    s.again("a range for the one that is bound", 1, 0, 0, 200, b)
    s.pose("the end does not learn of it", b, I8, YES, 1)
    for fallback, wanted in ((0, I8), (9, I32), (4, builtin(4))):
        a, b = s.number(2), s.number(2)
        s.pose("two plain ones", a, b, YES, 1)
        s.again("a range for the one that is bound", 1, fallback, 0, 200, b)
        s.defaults(1)
        s.shows("the end admits all integers", tup(a, b), tup(wanted, wanted))
    a, b = s.variable_at(s.new_site(), 1), s.var()
    s.pose("neither is requested", a, b, YES, 1)
    s.again("a range for the one that is bound", 1, 0, 0, 200, b)
    s.defaults(1)
    s.shows("its own types, as the end has none", tup(a, b), tup(I32, I32))
    a, b = s.number(9), s.number(9)
    s.pose("two floats", a, b, YES, 1)
    s.again("a range for the one that is bound", 1, 4, 0, 200, b)
    s.defaults(1)
    s.shows("nothing of the list is admitted: the fallback", tup(a, b), tup(builtin(4), builtin(4)))
    a, b = s.range(4, 0, 200), s.var()
    s.pose("a range and a free variable", a, b, YES, 1)
    s.order("the bound one is plain again", "01" + num(s.site - 1) + "00", b)
    s.defaults(1)
    s.shows("a range took part at the end", tup(a, b), tup(I32, I32))
    s.revision()


@part(alone=True)
def range_repeats_bound(s):
    """Requests for variables that are bound, to a type or to another variable."""
    n = s.range(2, 0, 200)
    s.pose("n is U8", n, builtin(4), YES, 1)
    for name, text in (("order 21 over order 21", ranged(s.site, 1, -1, 0)), ("order 1 over order 21", "01" + num(s.site) + "09"),
                       ("order 21 over order 1", ranged(s.site, 0, 2 ** 63, 2 ** 63)), ("order 21 over order 21 again", ranged(s.site, 0, 0, 1))):
        s.order(name, text, builtin(4))
        s.pose("it is U8 as before", n, builtin(4))
        s.pose("and not I16", n, builtin(1), NO)
    s.defaults(0)
    # The end has I16 to I64 and U8 to U64. By the own request: fallback, and whether it is a range.
    for name, fallback, again, wanted in (
            ("I16, signed", 1, (-1, 0), 1), ("I8, up to 5", 0, (0, 5), 2), ("U64, 2^63", 7, (2 ** 63, 2 ** 63), 7), ("F64, signed", 9, (-1, 0), 2),
            ("U8, plain", 4, None, 4), ("I8, plain", 0, None, 2), ("F64, plain", 9, None, 2), ("Never, plain", 10, None, 2)):
        a, b = s.range(2, 0, 200), s.range(3, 0, 200)
        s.pose("a range joins a range", a, b, YES, 1)
        s.order(name, ranged(s.site - 1, fallback, *again) if again else "01" + num(s.site - 1) + "%02x" % fallback, b)
        s.pose("the end is not narrowed: not I8", a, I8, NO)
        s.defaults(1)
        s.shows("the default of " + name, tup(a, b), tup(builtin(wanted), builtin(wanted)))
    a, b = s.range(2, 0, 200), s.range(3, 0, 200)
    s.pose("a range joins a range", a, b, YES, 1)
    s.order("the end is plain, with a float", "01" + num(s.site) + "09", b)
    s.pose("the bound one is a float with it", a, builtin(4), NO)
    s.defaults(1)
    s.shows("a range took part, and nothing of the list is admitted: the fallback", tup(a, b), tup(I32, I32))
    a, b = s.range(9, 0, 200), s.range(3, 0, 200)
    s.pose("a range joins a range", a, b, YES, 1)
    s.order("the end is plain, with a float", "01" + num(s.site) + "09", b)
    s.defaults(1)
    s.shows("F64 is admitted there", tup(a, b), tup(F64, F64))
    n = s.range(2, 0, 200)
    for name, text in (("plain", "01" + num(s.site) + "02"), ("2^63", ranged(s.site, 2, 2 ** 63, 2 ** 63)), ("plain with a float", "01" + num(s.site) + "09"),
                       ("signed", ranged(s.site, 9, -1, 0))):
        s.order("free: " + name, text, n)
    s.pose("the last one counts: not U8", n, builtin(4), NO)
    s.pose("nor F64", n, F64, NO)
    s.defaults(1)
    s.shows("I32", n, I32)
    s.revision()


@part()
def range_terms(s):
    """A range beside builtins, nodes, recovery and Sets, from either side, by either order."""
    n, x = s.range(9, 0, 200), s.var()
    for code in range(8, 32):
        s.both("not code %d" % code, *(n, builtin(code))[::(-1) ** code], NO)
    for name, term in (
            ("Reference", ref(SHARED, I32)), ("Tuple", tup()), ("Function", fun([], I32)), ("Iter", iter_(I32)), ("Range", range_(0, I32)), ("Array", arr(I32)),
            ("Map", map_(RO, I32, I32)), ("Set", set_(RO, I32)), ("NativeObject", native(1)), ("Struct", struct(1)), ("Enum", enum(1)), ("Trait", trait(1)),
            ("Host", host(1)), ("Generic", gen(0, 0)), ("SelfType", self_(0)), ("projection", proj(I32, nom(0), 0)), ("a Tuple of a variable", tup(x)),
            ("an Array of itself", arr(n)), ("a projection of itself", proj(n, nom(0), 0))):
        s.both("no %s" % name, n, term, NO)
        s.both("no %s, turned" % name, term, n, NO)
    for name, term in (("Unknown", U), ("Error", E), ("Unknown in a Tuple", tup(U)), ("Error in an Array", arr(E)), ("itself beside Unknown", tup(n, U)),
                       ("Unknown in a projection", proj(U, nom(0), 0)), ("itself", n)):
        s.both("%s binds nothing" % name, n, term)
        s.both("%s binds nothing, turned" % name, term, n)
    s.free(n, x)
    s.strictly("Sets of different access: the parts do not meet", set_(RO, n), set_(RW, builtin(4)), NO)
    s.strictly("nor here", map_(RW, n, x), map_(RO, builtin(4), n), NO)
    s.free(n, x)
    s.pose("by order 4 they meet", set_(RO, n), set_(RW, I8), NO)
    s.strictly("by order 22 with the same access", set_(RO, n), set_(RO, I8), NO)
    s.strictly("a Map of ranges", map_(RW, n, n), map_(RW, x, builtin(4)), YES, 2)
    s.shows("both", tup(n, x), tup(builtin(4), builtin(4)))
    a, b, c = s.range(2, 0, 200), s.range(2, -1, 0), s.range(2, 2 ** 63, 2 ** 63)
    s.strictly("ranges in Sets", set_(RW, a), set_(RW, b), YES, 1)
    s.both("nothing is left", set_(RW, a), set_(RW, c), NO)
    s.both("what both admit", b, builtin(4), NO)
    s.strictly("I16", b, builtin(1), YES, 1)
    s.revision()


@part(alone=True)
def range_deferred(s):
    """Deferrals, order 7 and order 6."""
    def never(bound):
        s.order("never defaults", "07", YES if bound else NO)
        s.bound += bound
    n = s.range(2, 0, 200)
    s.order("a range is deferred", "03" + n, "")
    s.again("and requested again", 0, 4, -1, 0, n)
    never(1)
    s.shows("Never, though it admits integers alone", n, NEVER)
    s.again("a request for it", 0, 4, -1, 0, NEVER)
    s.defaults(0)
    n = s.range(0, 0, 200)
    s.order("another", "03" + n, "")
    s.defaults(1)
    never(0)
    s.shows("order 6 came first", n, I32)
    a, b = s.range(0, 0, 200), s.range(4, -1, 0)
    s.order("a is deferred", "03" + a, "")
    s.pose("and joined to b", a, b, YES, 1)
    never(1)
    s.shows("the end of its chain", tup(a, b), tup(NEVER, NEVER))
    s.defaults(0)
    a, b, x = s.range(0, 0, 200), s.range(4, -1, 0), s.var()
    s.pose("a is joined to b", a, b, YES, 1)
    s.order("a is deferred: b is", "03" + a, "")
    s.pose("b is joined to a free variable", b, x, YES, 1)
    s.defaults(1)
    s.shows("what both admit", tup(a, b, x), tup(I32, I32, I32))
    never(0)
    n = s.range(2, 0, 200)
    s.order("a Tuple of a range is not deferred", "03" + tup(n), "")
    never(0)
    s.free(n)
    m = s.range(2, 2 ** 63, 2 ** 63)
    s.order("one of two is deferred", "03" + m, "")
    never(1)
    s.pose("Never is no type of the other", n, m, NO)
    s.defaults(1)
    s.shows("each by itself", tup(n, m), tup(I32, NEVER))
    s.revision()


@part(alone=True)
def range_beside(s):
    """Deferrals, recovery, circles, strict pairs, checks, and a session that is full."""
    n, m, o, x = s.range(2, 0, 200), s.range(0, 0, 5), s.range(0, 0, 200), s.var()
    s.order("a range is deferred", "03" + n, "")
    s.order("never defaults", "07", YES)
    s.bound += 1
    s.shows("n", n, NEVER)
    s.pose("Unknown binds nothing", m, U)
    s.pose("nor a Tuple with Error", m, tup(E))
    s.pose("a circle", m, arr(m), NO)
    s.pose("itself", m, m)
    s.strictly("order 22 holds to the types", o, I8, NO)
    s.strictly("and joins", m, o, YES, 1)
    s.strictly("both admit", m, I8, NO)
    s.pose("no check", o, builtin(4), CANCELLED, 0, 0)
    s.pose("one check", tup(o, o), tup(builtin(4), I8), CANCELLED, 0, 1)
    s.pose("a Set of a range", set_(RO, o), set_(RW, x), YES, 1)
    s.pose("x is one", x, I8, NO)
    s.defaults(1)
    s.shows("all", tup(m, o, x), tup(I32, I32, I32))
    y, z = s.vars(2)
    fill(s, y, 0)
    s.order("no node is left", "05" + z, 7)
    n = s.range(0, 0, 200)
    s.order("a sign over 1", "15" + num(s.site) + "02 02 00 00 00 00 00", 13)
    s.order("leftover bytes", ranged(s.site, 2, 0, 5) + "00", 1)
    s.defaults(1)
    s.again("what it resolves to", 0, 2, 0, 5, I32)
    s.revision()


@part(alone=True)
def range_512(s):
    """13 before 8, and 8 for new places alone."""
    n = s.range(0, 0, 200)
    first = s.site
    while s.count < 511:
        s.var()
    last = s.range(5, -1, 200)
    new = s.new_site()
    s.order("a 513th variable", ranged(new, 2, 0, 5), 8)
    for name, low, high in (("low above high", 1, 0), ("no type", -1, 2 ** 63)):
        s.order(name + " before 8", ranged(new, 2, low, high), 13)
    s.order("a sign over 1 before 8", "15" + num(new) + "02 02 00 00 00 00 00", 13)
    s.order("leftover bytes before 8", ranged(new, 2, 0, 5) + "00", 1)
    s.order("a place that is there", ranged(first, 0, 0, 200), n)
    s.order("13 for a place that is there", ranged(first, 0, 1, 0), 13)
    s.order("order 0 at such a place", "00" + num(first) + "01", n)
    s.pose("the last one", last, builtin(4), NO)
    s.defaults(2)
    s.shows("both", tup(n, last), tup(I32, I32))
    s.revision()


# ---------------------------------------------------------------- Runs

def run_case(name, sheet, reason, orders, output, room=ROOM, words=Sheet.LEAST_WORDS):
    RUNS.append((name, bytes.fromhex(sheet) if isinstance(sheet, str) else sheet, room, words,
                 Run(reason, orders, bytes.fromhex(output))))


TWO = "03 00 07 00 01 08"           # a variable, the revision
TWO_OUT = "03 00 01 00 02 00 00"
run_case("an empty sheet", "", 0, 0, "")
run_case("an empty sheet and no room", "", 0, 0, "", room=0)
run_case("an empty order", "00", 0, 1, "01 01")
run_case("two orders", TWO, 0, 2, TWO_OUT)
run_case("room for both", TWO, 0, 2, TWO_OUT, room=7)
run_case("a byte more than both", TWO, 0, 2, TWO_OUT, room=8)
run_case("a byte too few for the second", TWO, 11, 1, "03 00 01 00", room=6)
run_case("room for the first", TWO, 11, 1, "03 00 01 00", room=4)
run_case("a byte too few for the first", TWO, 11, 0, "", room=3)
run_case("no room", TWO, 11, 0, "", room=0)
run_case("no room for a refusal", "00", 11, 0, "", room=1)
run_case("room for a refusal", "00", 0, 1, "01 01", room=2)
run_case("a length beyond the sheet", TWO + "02 08", 10, 2, TWO_OUT)
run_case("a length alone", TWO + "01", 10, 2, TWO_OUT)
run_case("a length that ends early", TWO + "80", 10, 2, TWO_OUT)
run_case("a length not shortest", TWO + "81 00 08", 10, 2, TWO_OUT)
run_case("a length too large", TWO + "80 80 80 80 10 08", 10, 2, TWO_OUT)
run_case("the largest length", TWO + "ff ff ff ff 0f", 10, 2, TWO_OUT)
run_case("a faulty length in a full output", TWO + "80 00", 10, 2, TWO_OUT, room=7)
run_case("a faulty first length, no room", "80 00", 10, 0, "", room=0)
run_case("an order that does not fit before a faulty length", TWO + "80 00", 11, 1, "03 00 01 00", room=6)
run_case("the order that does not fit has no effect and ends the run", "03 00 07 00 03 00 08 00 00", 11, 1, "03 00 01 00", room=6)
run_case("a refused order counts as answered", "00" + TWO, 0, 3, "01 01" + TWO_OUT)
run_case("2,048 nodes after a pair of 1,002 that binds nothing", "ee 07 04 09 05 e8 07" + "02" * 1001 + "83 10 0f 05 ff 0f" + "02" * 2047,
         0, 2, "02 00 01 08 00 00 00 00 01 01 00 00")
run_case("2,048 nodes after an order 22 of 1,002 that binds nothing", "ee 07 16 09 05 e8 07" + "02" * 1001 + "83 10 0f 05 ff 0f" + "02" * 2047,
         0, 2, "02 00 01 08 00 00 00 00 01 01 00 00")
# Document 02's open points, as docs/DECISIONS.md has them.
run_case("a default looks at the end of the chain", "03 01 00 04 09 15 01 02 01 00 01 00 00 00 06 04 09 01 00 01 01 01 06 03 05 01 01",
         0, 5, "03 00 01 00 03 00 01 01 02 00 01 02 00 01 03 00 04 02")
run_case("a default takes the fallback of the variable whose turn it is",
         "09 15 00 05 00 00 00 00 00 0a 03 00 01 00 09 15 02 04 00 00 00 00 00 0a 06 04 09 01 00 01 01 06 04 09 01 02 01 01 01 06 03 05 01 01",
         0, 7, "03 00 01 00 03 00 01 01 03 00 01 02 02 00 01 02 00 01 02 00 01 03 00 04 05")
run_case("a range for a variable bound to a plain one, whose fallback that one admits",
         "03 01 00 02 03 01 01 02 06 04 09 01 00 01 01 0a 15 00 00 00 00 00 00 00 c8 01 01 06 03 05 01 01",
         0, 6, "03 00 01 00 03 00 01 01 02 00 01 03 00 01 01 02 00 01 03 00 04 00")
run_case("the same with fallback F64", "03 01 00 02 03 01 01 02 06 04 09 01 00 01 01 0a 15 00 09 00 00 00 00 00 c8 01 01 06 03 05 01 01",
         0, 6, "03 00 01 00 03 00 01 01 02 00 01 03 00 01 01 02 00 01 03 00 04 02")
run_case("a range for a variable bound to one without a request", "03 00 00 01 03 00 01 00 06 04 09 01 00 01 01 0a 15 00 00 00 00 00 00 00 c8 01 01 06 03 05 01 01",
         0, 6, "03 00 01 00 03 00 01 01 02 00 01 03 00 01 01 02 00 01 03 00 04 02")
run_case("13 behind a faulty number", "09 15 00 02 02 80 00 00 00 01", 0, 1, "01 03")
run_case("13 behind leftover bytes", "0a 15 00 02 02 00 00 00 00 01 00", 0, 1, "01 01")
run_case("the sign is a byte", "09 15 00 02 80 00 00 00 00 01", 0, 1, "01 0d")
run_case("order 1 after order 21", "0a 15 00 02 00 00 00 00 00 c8 01 03 01 00 02 06 04 09 01 00 04 00", 0, 3, "03 00 01 00 03 00 01 00 02 00 01")
# docs/DIFFERENCES.md: a default that is no type of its family, and a range with the same fallback.
run_case("a plain default takes F32", "03 01 00 08 01 06 03 05 01 00", 0, 3, "03 00 01 00 02 00 01 03 00 04 08")
run_case("a range with fallback F32 does not", "0a 15 00 08 00 00 00 00 00 c8 01 01 06 03 05 01 00", 0, 3, "03 00 01 00 02 00 01 03 00 04 02")
run_case("a range that joins a plain one", "09 15 00 04 01 00 01 00 00 00 03 01 01 02 06 04 09 01 00 01 01", 0, 3, "03 00 01 00 03 00 01 01 02 00 01")
RANGED = "0a 15 00 00 00 00 00 00 00 c8 01"
run_case("room for an order 21", RANGED + "01 08", 0, 2, "03 00 01 00 02 00 00", room=7)
run_case("a byte too few for an order 21", RANGED, 11, 0, "", room=3)
run_case("room for a 13", "09 15 00 02 02 00 00 00 00 01", 0, 1, "01 0d", room=2)
run_case("a byte too few for a 13", "09 15 00 02 02 00 00 00 00 01", 11, 0, "", room=1)
run_case("an order 21 cut by its length", "09 15 00 00 00 00 00 00 00 c8 01 08", 0, 2, "01 01 02 00 00")
run_case("a length beyond the sheet before an order 21", RANGED + "0b 15 00 00 00 00 00 00 00 c8 01", 10, 1, "03 00 01 00")
run_case("an order 21 that does not fit issues nothing and ends the run", "03 01 01 02" + RANGED + "01 06", 11, 1, "03 00 01 00", room=7)
CLASH = "03 00 00 00 0a 16 09 0b 00 01 00 0b 01 04 02"      # a variable, a strict pair whose parts are not met
CLASH_OUT = "03 00 01 00 02 00 00"
run_case("a strict clash, and the variable after it", CLASH + "03 05 01 00", 0, 3, CLASH_OUT + "03 00 01 00")
run_case("the same pair loosely", CLASH.replace("16", "04") + "03 05 01 00", 0, 3, "03 00 01 00 02 00 01 03 00 04 02")
run_case("room for an order 22", CLASH, 0, 2, CLASH_OUT, room=7)
run_case("a byte too few for an order 22", CLASH, 11, 1, "03 00 01 00", room=6)
run_case("room for a refused order 22", "01 16", 0, 1, "01 01", room=2)
run_case("a byte too few for a refused order 22", "01 16", 11, 0, "", room=1)
run_case("an order 22 that does not fit binds nothing and ends the run", "03 00 00 00 06 16 09 01 00 04 02 01 08", 11, 1, "03 00 01 00", room=6)
run_case("a length beyond the sheet before an order 22", CLASH + "07 16 09 01 00 04 02", 10, 2, CLASH_OUT)
run_case("an order 22 cut by its length", "03 00 00 00 04 16 09 01 00 01 08", 0, 3, "03 00 01 00 01 01 02 00 00")
run_case("a faulty length behind an order 22, in a full output", CLASH + "80 00", 10, 2, CLASH_OUT, room=7)
for kind, first, last in (("resolve", "00 00 00", "05 01 00"), ("a hole", "02 00", "02 00"), ("a number place", "00 00 01", "01 00 02")):
    run_case("an answer that would have 2^40 bytes, to " + kind, b"".join(
        [framed(bytes.fromhex(first))] + [framed(bytes.fromhex("00" + num(n) + "00")) for n in range(1, 41)]
        + [framed(bytes.fromhex("04 09" + inf(n) + tup(inf(n + 1), inf(n + 1)))) for n in range(40)]
        + [framed(bytes.fromhex(last))]),
        11, 81, "".join("03 00 01" + num(n) for n in range(41)) + "02 00 01" * 40)


def tuple_order(size):
    """An order 16 of a Tuple that takes so many bytes with its length; its answer takes 3."""
    count = size - 7
    return framed(bytes.fromhex("10 00 05" + num(count)) + b"\x02" * count)


# The sheet program reads 32,768 bytes: what the last order has beyond them makes run 10 there.
for more in range(-2, 3):
    long_sheet = tuple_order(1000) * 31 + tuple_order(1768 + more - 2) + bytes.fromhex("01 08")
    run_case("a sheet of %d bytes" % len(long_sheet), long_sheet, 0, 33, "02 00 00" * 33)

# An output of 32,768 bytes: 32 answers of 1,000 bytes, one that leaves room for the revision or a byte more or less.
WIDE = framed(bytes.fromhex("05" + tup(*[U] * 994)))
WIDE_OUT = framed(bytes.fromhex("00" + tup(*[U] * 994))).hex()
for more in range(-1, 2):
    last = tup(*[U] * (768 - 3 - 6 + more))
    answers = WIDE_OUT * 32 + framed(bytes.fromhex("00" + last)).hex()
    run_case("answers of %d bytes" % (32768 + more), WIDE * 32 + framed(bytes.fromhex("05" + last)) + bytes.fromhex("01 08"),
             *((0, 34, answers + "02 00 00") if more < 1 else (11, 33, answers)))

run_case("an area of 16,383 words", TWO, 12, 0, "", words=16383)
run_case("no area, an empty sheet", "", 12, 0, "", words=0)
run_case("12 before 10", "80 00", 12, 0, "", words=16383)
run_case("an output of 16,777,216 bytes", TWO, 0, 2, TWO_OUT, room=16777216)
run_case("an output of 16,777,217 bytes", TWO, 12, 0, "", room=16777217)
run_case("a sheet of 16,777,217 bytes", bytes(16777217), 12, 0, "")
run_case("a sheet of 16,777,216 bytes", b"\x80" + bytes(16777215), 10, 0, "")


# ---------------------------------------------------------------- Making

def scripts():
    """Pairs (name, script): each part alone, and all of them but the lone ones together: those without orders 21 and 22, which the Rust is asked too, and the others."""
    together, strict, ranges = Script(), Script(), Script()
    for name, function, alone in PARTS:
        script = Script()
        function(script)
        yield name, script
        if not alone:
            kinds = {order[:1] for _, order, _ in script.steps}
            function(ranges if function.__name__.startswith("range_") and b"\x15" in kinds else strict if b"\x16" in kinds else together)
    for name, parts in (("together", together), ("together_strict", strict), ("together_ranges", ranges)):
        x, *free = parts.vars(5)
        fill_variables(parts)
        parts.has_number = True
        fill_nodes(parts, x, free)
        yield name, parts


def make():
    for name, script in scripts():
        sheet, answers = script.sheet(), script.stated()
        if len(sheet) > Sheet.INPUT or len(answers) > ROOM:
            sys.exit("%s takes %d bytes, its answers %d" % (name, len(sheet), len(answers)))
        wanted = Run(0, len(script.steps), answers)
        if reference.run(sheet) != wanted:
            sys.exit("the reference does not answer %s as stated" % name)
        SHEETS.append((name, ROOM, sheet, wanted))
    for name, sheet, room, words, wanted in RUNS:
        if reference.run(sheet, room, words=words) != wanted:
            sys.exit("%s: the reference gives %s" % (name, reference.run(sheet, room, words=words)))
        if words == Sheet.LEAST_WORDS:
            SHEETS.append((name, room, sheet, wanted))



make()


# ---------------------------------------------------------------- Running

def write(directory):
    sheet, run = next((sheet, run) for name, _, sheet, run in SHEETS if name == "together")
    store(directory, sheet, run.output)
    print("%d orders, %d bytes in, %d bytes out" % (run.orders, len(sheet), len(run.output)))


def write_sheets(directory):
    """Those with the sheet program's room, each in a file."""
    count = 0
    for name, room, sheet, run in SHEETS:
        if room == ROOM and len(sheet) < 2 * Sheet.INPUT:
            path = os.path.join(directory, name.replace(" ", "_").replace(",", ""))
            put(path + ".in", sheet)
            put(path + ".out", reference.program(sheet))
            count += 1
    print("%d sheets" % count)


def frame(room, sheet, words, fill, run):
    """What the program `sheets` takes and gives for a run; the last byte before the answers says that nothing else was touched."""
    return (pack("<IIII", room, len(sheet), words, fill) + sheet,
            pack("<BIIB", run.reason, run.orders, len(run.output), 1) + run.output)


def all_frames():
    """All runs that the program `sheets` can hold, with areas of the least size and larger ones, all of them filled before."""
    frames = []
    for name, room, sheet, run in SHEETS:
        if room <= ROOM and len(sheet) <= Sheet.INPUT:
            frames.append(frame(room, sheet, Sheet.LEAST_WORDS, 0xffffffff, run))
    for name, sheet, room, words, run in RUNS:
        if room <= ROOM and len(sheet) <= Sheet.INPUT:
            frames.append(frame(room, sheet, words if words < Sheet.LEAST_WORDS else 20000, 0xa5a5a5a5, run))
    sheet = orders_cases.case_input()[0]
    frames.append(frame(ROOM, sheet, 16385, 1, reference.run(sheet)))
    return b"".join(frame[0] for frame in frames), b"".join(frame[1] for frame in frames), len(frames)


def write_frames(directory):
    data, stated, count = all_frames()
    store(directory, data, stated)
    print("%d runs, %d bytes in, %d bytes out" % (count, len(data), len(stated)))


def check(directory):
    return check_stored(directory, *all_frames())


def listing():
    count = 0
    for name, script in scripts():
        if name.startswith("together"):
            break
        print(name)
        session = Sheet()
        for comment, order, _ in script.steps:
            count += 1
            answer = session.step(order, 1 << 24)
            print("  %s\n      %s\n      %s" % (comment, shortened(order.hex(" ")), shortened(answer.hex(" "))))
    for name, sheet, room, words, run in RUNS:
        print("%s\n      reason %d, %d orders, %d bytes" % (name, run.reason, run.orders, len(run.output)))
    print("%d orders in %d parts, %d runs" % (count, len(PARTS), len(RUNS)))


def slips():
    """Sheets with large shared terms are left out: some slips walk them as trees."""
    from sheet_slips import PLAIN, SLIPS
    sheets = [each for each in SHEETS if each[0] not in LARGE and "2^40" not in each[0] and len(each[2]) <= Sheet.INPUT
              and each[3].reason != 12]

    def finder(how):
        return next((name for name, room, sheet, run in sheets if reference.run(sheet, room, how) != run), None)
    check_plain(PLAIN, finder)
    return check_slips(SLIPS, finder)


if __name__ == "__main__":
    sys.exit(run_cases(__doc__, {"list": listing, "slips": slips},
                       {"write": write, "sheets": write_sheets, "frames": write_frames, "check": check}))
