#!/usr/bin/env python3
"""Random sheets.

sheets(how_many, seed) gives triples: the family, room for the answers, the
sheet. They are the same for the same seed. In half of the sheets pairs are
posed by order 22, some or all of them, and in half of them numbers are
requested by order 21, some or most; strict=(0,) and ranged=(0,) make none.

  python3 tests/sheet_generate.py [--sheets N] [--seed S]     counts and sizes by family

The families:
  session    a few variables, number requests, holes, deferrals and pairs of
             which many unify; clashes, circles, recovery terms, projections
  checks     one session with every k up to what its last pair needs
  chain      chains of variables, joins of families, both defaults
  limits     512 variables, 2,048 nodes, 200 levels, one less and one more
  repeats    pairs posed again and again where few nodes are left, satisfied, clashing and cancelled ones
  room       an output that ends at an answer, one byte before or after
  full       the same at 32,768 bytes
  doubled    terms whose parts are shared again and again; deep terms
  damaged    bytes, fields and lengths changed, sheets cut
  mixed      long sheets of all orders
  numbers    number variables with fallbacks of every code, joined, requested again, deferred and given defaults
and in JUDGED, for tests/judge.py, too:
  operations orders 9 to 20 of all sorts between those of a session, damaged ones among them
  edges      orders 9 to 20 with 200 levels or 2,048 nodes, one less and one more
  shadowed   substitutions with an entry twice, values that hold what is substituted, parameters of a family that are entries too
  every_room one sheet with outputs of every length from 0 to one byte more than its answers
  strictly   orders 22 that are answered; the other families of JUDGED have none
  refused_strictly  orders 22 that are refused
  ranges     orders 21 that are answered, some of them beside orders 22; the other families of JUDGED have none
  refused_ranges    orders 21 that are refused
"""

import argparse
import random
import sys

import sheet_reference as reference
from orders_generate import Maker, MarkedFields, faulty_field, random_order
from orders_reference import (
    ARRAY, BUILTIN, ENUM, FUNCTION, GENERIC, HOST, INFERENCE, ITER, MAP, NATIVE_OBJECT, ORDERS, PROJECTION, RANGE, REFERENCE,
    SELF_TYPE, SET, STRUCT, THE_ERROR, THE_UNKNOWN, TRAIT, TUPLE, children, with_children, written)
from sheet_reference import Sheet
from terms_generate import damaged_bytes, not_shortest, too_large
from terms_reference import Refused, framed, number_bytes, split

MOST = 4294967295
ROOM = Sheet.OUTPUT
LENGTH = Sheet.INPUT
CODES = (2, 2, 2, 0, 3, 7, 8, 8, 9, 9, 9, 10, 11)
I8, I32 = (BUILTIN, 0), (BUILTIN, 2)


def var(number):
    return (INFERENCE, number)


def order(kind, *fields):
    """Fields are numbers and terms."""
    return bytes([kind]) + b"".join(number_bytes(field) if isinstance(field, int) else written(field) for field in fields)


def joined(orders):
    return b"".join(map(framed, orders))


class Source(random.Random):
    """Random choices; strict is the share of pairs that are posed by order 22, ranged that of number requests by order 21."""

    strict = ranged = 0


def pair_kind(rng):
    return 22 if rng.strict and rng.random() < rng.strict else 4


# Bounds at the ends of the types, and beyond.
EDGES = sorted({sign * 2 ** bits + more for bits in (7, 8, 15, 16, 31, 32, 63) for sign in (1, -1) for more in (-1, 0, 1)}
               | {-2 ** 64 + 1, -5, -1, 0, 1, 5, 100, 200, 2 ** 64 - 1})
USUAL = (-200, -129, -128, -100, -1, 0, 0, 1, 5, 100, 127, 128, 200, 255, 256, 40000, 70000, 2 ** 31, 2 ** 32, 2 ** 63)


def bound(rng, value):
    minus = value < 0 or value == 0 and rng.random() < 0.2
    return bytes([minus]) + number_bytes(abs(value) >> 32) + number_bytes(abs(value) & MOST)


def bounds(rng):
    """Low and high; now and then they fall, or no type holds both."""
    pick = rng.random()
    low, high = sorted(rng.choices(USUAL if pick < 0.6 else EDGES, k=2))
    if pick > 0.9:
        low = high
    return (high, low) if rng.random() < 0.03 else (low, high)


def faulty_bounds(rng):
    """Bounds that are refused with 13, as bytes."""
    low, high = rng.choice(((1, 0), (0, -1), (5, 4), (-1, 2 ** 63), (-2 ** 63 - 1, 0), (2 ** 32, 1), (-4, -5), (-1, 2 ** 64 - 1), (0, 0), (-1, 7)))
    data = bytearray(bound(rng, low) + bound(rng, high))
    if low <= high < 2 ** 63 and low >= -2 ** 63:
        data[rng.choice((0, len(bound(rng, low))))] = rng.choice((2, 3, 127, 128, 129, 255))
    return bytes(data)


def range_request(rng, site, fallback):
    given = faulty_bounds(rng) if rng.random() < 0.02 else b"".join(bound(rng, value) for value in bounds(rng))
    return order(21, site, fallback) + given


def number_request(rng, site, fallback, answered=False):
    """An order 1, or an order 21; answered is for one that is not refused with 13."""
    if not rng.ranged or rng.random() >= rng.ranged:
        return order(1, site, fallback)
    if answered:
        return order(21, site, fallback) + bound(rng, rng.choice((-200, -1, 0, 5))) + bound(rng, rng.choice((5, 100, 200, 2 ** 31)))
    return range_request(rng, site, fallback)


class Script:
    """Makes the orders of one sheet."""

    def __init__(self, rng):
        self.rng = rng
        self.orders = []
        self.places = {}
        self.maker = Maker(rng, 4)
        self.clean = [BUILTIN, BUILTIN, BUILTIN, TUPLE, STRUCT, TRAIT, HOST, GENERIC, SELF_TYPE]
        self.maker.leaves = self.clean
        self.maker.pool_share = 0.35
        self.collections = []       # pairs of a variable and a Set or Map that it met

    def chance(self, share):
        return self.rng.random() < share

    def add(self, kind, *fields):
        self.orders.append(order(kind, *fields))

    def pose(self, *fields):
        self.add(pair_kind(self.rng), *fields)

    def sheet(self):
        return joined(self.orders)

    # Variables

    def count(self):
        return len(self.places)

    def placed(self, place):
        self.places.setdefault(place, self.count())

    def site(self):
        return self.rng.randrange(4) if self.chance(0.9) else self.maker.number()

    def issue(self):
        site, slot = self.site(), self.rng.choice((0, 0, 1, 1, 2))
        self.placed((site, slot))
        self.add(0, site, slot)

    def fresh(self):
        """A variable of a site that no other has."""
        number = self.count()
        self.placed((1000 + number, 0))
        self.add(0, 1000 + number, 0)
        return var(number)

    def hole(self):
        site = self.site()
        self.placed(("hole", site))
        self.add(2, site)

    def request(self, site=None):
        site = self.site() if site is None else site
        request = number_request(self.rng, site, self.rng.choice(CODES) if self.chance(0.95) else self.rng.randrange(32))
        # A range may be refused, and then issues nothing.
        if request[0] == 1 or not reference.run(framed(request)).output[1]:
            self.placed((site, 1))
        self.orders.append(request)

    def variable(self):
        """A variable; now and then one that is not issued."""
        if not self.count() or self.chance(0.004):
            return var(self.count() + self.rng.choice((0, 0, 1, 200)))
        return var(self.rng.randrange(self.count()))

    def any_variable(self, term=None):
        return self.variable()

    # Terms

    def term(self, size=None):
        return self.maker.term(self.rng.choice((1, 1, 2, 3, 4, 6, 8)) if size is None else size)

    def with_variables(self, term):
        for _ in range(self.rng.choice((0, 1, 1, 1, 2, 2, 3))):
            term = self.maker.somewhere(term, self.any_variable, self.rng.choice((0, 0.1, 0.3)))
        return term

    def flipped(self, term, share=0.5):
        """Accesses of Sets and Maps changed."""
        term = with_children(term, [self.flipped(part, share) for part in children(term)])
        return (term[0], 1 - term[1]) + term[2:] if term[0] in (SET, MAP) and self.chance(share) else term

    def recovery(self, term=None):
        return self.rng.choice((THE_UNKNOWN, THE_ERROR))

    def projection(self, term=None):
        rng = self.rng
        part = rng.choice((self.variable(), self.variable(), self.recovery(), I32, self.term(2)))
        pick = rng.randrange(4)
        receiver = part if pick == 0 else I8
        interface = (rng.randrange(2), (part,) if pick == 1 else (), ((0, part),) if pick == 2 else ())
        arguments = (part,) if pick == 3 else (I8,) if self.chance(0.2) else ()
        return (PROJECTION, receiver, interface, rng.randrange(2), arguments)

    def around(self, term, levels):
        for _ in range(levels):
            term = self.maker.around([term] if self.chance(0.6) else self.rng.sample([term, self.term(1)], 2))
        return term

    # Pairs

    def pair(self):
        names, shares = zip(*((STRICT_PAIRS if self.rng.strict else PAIRS) + (RANGED_PAIRS if self.rng.ranged else ())))
        left, right = getattr(self, self.rng.choices(names, shares)[0])()
        return (right, left) if self.chance(0.5) else (left, right)

    def unifying(self):
        term = self.term()
        return self.with_variables(term), self.with_variables(term)

    def clashing(self):
        left, right = self.unifying()
        return left, self.maker.somewhere(right, self.maker.other, self.rng.choice((0.1, 0.4)))

    def unlike(self):
        return self.with_variables(self.term()), self.with_variables(self.term())

    def circle(self):
        variable = self.variable()
        inside = self.around(variable, self.rng.choice((0, 1, 1, 2, 3)))
        return variable, inside if self.chance(0.8) else self.with_variables(inside)

    def link(self):
        return self.variable(), self.variable()

    def valued(self):
        return self.variable(), (BUILTIN, self.rng.choice(CODES + (1, 4, 5, 6)))

    def composed(self):
        return self.variable(), self.with_variables(self.term())

    def recovering(self):
        left, right = self.unifying() if self.chance(0.5) else self.composed()
        for _ in range(self.rng.choice((1, 1, 2))):
            right = self.maker.somewhere(right, self.recovery, self.rng.choice((0, 0.2)))
        return left, right

    def passed_over(self):
        """A new variable meets a Tuple with Unknown or Error first, and then one without: posed again, the rest of the first is met."""
        new, other = self.fresh(), self.fresh()
        parts = [(self.recovery(), self.variable()), (self.term(2), other)]
        self.rng.shuffle(parts)
        passed, bound = zip(*parts)
        return (TUPLE, (new, new)), (TUPLE, ((TUPLE, bound), (TUPLE, passed)))

    def projecting(self):
        one = self.projection()
        if self.chance(0.4):
            return self.variable(), one
        other = one if self.chance(0.4) else self.maker.other(one) if self.chance(0.4) else self.projection()
        if self.chance(0.5):
            return self.around_both(one, other)
        return one, other

    def around_both(self, one, other):
        """The same terms around two terms."""
        frame = self.around((HOST, 77), self.rng.choice((1, 1, 2)))

        def filled(term, inner):
            return inner if term == (HOST, 77) else with_children(term, [filled(part, inner) for part in children(term)])
        return filled(frame, one), filled(frame, other)

    def accessed(self):
        term = self.term(self.rng.choice((1, 2, 3)))
        for _ in range(self.rng.choice((1, 1, 2))):
            term = (SET, 0, term) if self.chance(0.6) else (MAP, 0, term, self.term(1))
            if self.chance(0.4):
                term = self.rng.choice(((REFERENCE, 0, term), (TUPLE, (self.variable(), term)), (ARRAY, term), (RANGE, 1, term)))
        left, right = self.with_variables(self.flipped(term)), self.with_variables(self.flipped(term))
        if self.chance(0.3):
            left, right = (TUPLE, (self.variable(), left)), (TUPLE, (left, right))
        return left, right

    def accessed_again(self):
        """A variable meets a Set or Map that it met before, or a new one; now and then with another access."""
        if not self.collections or self.chance(0.4):
            term = self.with_variables(self.term(self.rng.choice((1, 2))))
            self.collections.append((self.variable(), (SET, 0, term) if self.chance(0.6) else (MAP, 1, self.term(1), term)))
        variable, term = self.rng.choice(self.collections)
        return variable, self.flipped(term, 0.3)

    def edged(self):
        """A new number variable with a bound at an end of a type, or one beyond it, and that type."""
        code, number = self.rng.randrange(8), self.count()
        bits = 8 << code % 4
        least, most = (-2 ** (bits - 1), 2 ** (bits - 1) - 1) if code < 4 else (0, 2 ** bits - 1)
        low, high = self.rng.choice(((least, least), (least, 0), (0, most), (most, most), (least - 1, 0), (0, most + 1), (least, most)))
        low, high = max(low, -2 ** 63), min(high, 2 ** 64 - 1)
        self.placed((2000 + number, 1))
        self.orders.append(order(21, 2000 + number, self.rng.choice(CODES)) + bound(self.rng, low) + bound(self.rng, high))
        return var(number), (BUILTIN, code)

    def same(self):
        """The parts meet in an order that shows: several variables, each more than once."""
        rng = self.rng
        parts = [rng.choice((self.variable(), self.variable(), (BUILTIN, rng.choice(CODES)), self.term(2)))
                 for _ in range(rng.randint(2, 5))]
        others = [rng.choice((self.variable(), self.variable(), (BUILTIN, rng.choice(CODES)), self.term(2))) for _ in parts]
        kind = rng.choice((TUPLE, FUNCTION, STRUCT, ENUM, NATIVE_OBJECT, TRAIT, STRUCT))
        if kind == TUPLE:
            return (kind, tuple(parts)), (kind, tuple(others))
        if kind == FUNCTION:
            return (kind, tuple(parts[1:]), parts[0]), (kind, tuple(others[1:]), others[0])
        split = rng.randint(0, len(parts))

        def nominal(terms):
            return (1, tuple(terms[:split]), tuple(enumerate(terms[split:])))
        return (kind, nominal(parts)), (kind, nominal(others))

    def checks(self):
        pick = self.rng.random()
        if pick < 0.7:
            return self.rng.choice((50, 1000, 1000, MOST))
        return self.rng.choice((0, 1, 1, 2, 2, 3, 3, 4, 5, 6, 8))

    def constrain(self, checks=None):
        left, right = self.pair()
        self.pose(self.checks() if checks is None else checks, left, right)

    # Others

    def resolve(self):
        self.add(5, self.variable() if self.chance(0.6) else self.with_variables(self.term()))

    def defer(self):
        self.add(3, self.variable() if self.chance(0.8) else self.with_variables(self.term(2)))

    def plain(self):
        self.orders.append(Maker(self.rng, self.rng.choice((9, 10, 11, 12, 13, 14, 15, 16, 17, 18, 19, 20))).order().data())

    def numeric_defaults(self):
        self.add(6)

    def never_defaults(self):
        self.add(7)

    def revision(self):
        self.add(8)

    def step(self, shares):
        names, weights = zip(*shares)
        getattr(self, self.rng.choices(names, weights)[0])()

    def show_all(self):
        """What every variable resolves to, and the revision."""
        self.add(5, (TUPLE, tuple(var(number) for number in range(self.count()))))
        self.add(8)


PAIRS = (("unifying", 22), ("clashing", 12), ("unlike", 3), ("circle", 9), ("link", 12), ("valued", 10), ("composed", 9),
         ("recovering", 8), ("projecting", 8), ("accessed", 8), ("same", 14))
RANGED_PAIRS = (("edged", 12),)
STRICT_PAIRS = PAIRS + (("accessed", 30), ("accessed_again", 20))
STEPS = (("constrain", 52), ("resolve", 12), ("issue", 6), ("hole", 4), ("request", 9), ("defer", 6), ("numeric_defaults", 3),
         ("never_defaults", 3), ("revision", 5), ("plain", 1.2))
MIXED = (("constrain", 20), ("resolve", 12), ("issue", 6), ("hole", 4), ("request", 6), ("defer", 5), ("numeric_defaults", 1),
         ("never_defaults", 1), ("revision", 4), ("plain", 25))


# Families

def started(rng, most=6):
    script = Script(rng)
    for _ in range(rng.randint(1, most)):
        script.step((("issue", 5), ("request", 4), ("hole", 2)))
    return script


def session_script(rng):
    script = started(rng)
    for _ in range(rng.choice((1, 2, 3, 4, 6, 8, 12, 16))):
        script.step(STEPS)
    if rng.random() < 0.25:
        script.add(rng.choice((6, 7)))
    if rng.random() < 0.9:
        script.show_all()
    return script


def session(rng):
    yield ROOM, session_script(rng).sheet()


def needed(orders):
    """The checks that the last order, a pair, needs, given all orders before it."""
    low, high = 0, 1
    body = orders[-1]

    def cancelled(checks):
        return reference.run(joined(orders[:-1] + [with_checks(body, checks)])).output[-1] == reference.CANCELLED
    while cancelled(high):
        high *= 2
    while low < high:
        middle = (low + high) // 2
        low, high = (middle + 1, high) if cancelled(middle) else (low, middle)
    return low


def with_checks(body, checks):
    """A pair whose k is a single byte, with another k."""
    return body[:1] + number_bytes(checks) + body[2:]


def checks(rng):
    """The same session with every k up to what the last pair needs."""
    script = started(rng, 4)
    for _ in range(rng.choice((0, 0, 1, 2))):
        script.constrain(100)
    script.constrain(0)
    before = script.orders
    if reference.run(script.sheet()).output[-2:] != b"\x00\x02":
        # The pair was refused.
        yield ROOM, script.sheet()
        return
    need = needed(before)
    wanted = range(need + 2) if need < 24 else sorted(rng.sample(range(need), 8)) + [need - 1, need, need + 1]
    for limit in wanted:
        script.orders = before[:-1] + [with_checks(before[-1], limit)]
        script.show_all()
        yield ROOM, script.sheet()


def chain(rng):
    script = Script(rng)
    how_many = rng.randint(2, 10)
    for site in range(how_many):
        pick = rng.random()
        if pick < 0.35:
            script.request(site)
        elif pick < 0.5:
            script.placed(("hole", site))
            script.add(2, site)
        else:
            slot = rng.choice((0, 1, 1))
            script.placed((site, slot))
            script.add(0, site, slot)
    links = [(left, left + 1) for left in range(how_many - 1)]
    if rng.random() < 0.5:
        rng.shuffle(links)
    for left, right in links:
        if rng.random() < 0.9:
            pair = (var(left), var(right)) if rng.random() < 0.6 else (var(right), var(left))
            if rng.random() < 0.15:
                pair = (ARRAY, pair[0]), (ARRAY, pair[1])
            script.pose(9, *pair)
        if rng.random() < (0.3 if rng.ranged else 0.1):
            script.request(rng.randrange(how_many))
        if rng.random() < 0.1:
            script.defer()
    if rng.random() < 0.4:
        script.pose(5, *script.valued())
    for kind in rng.choice(((6, 7), (7, 6), (6,), (7,), (6, 8, 6), (7, 8, 7))):
        if rng.random() < 0.5:
            script.add(3, script.variable())
        script.add(kind)
    script.show_all()
    for site in range(how_many):
        if rng.random() < 0.3:
            script.request(site)
    yield ROOM, script.sheet()


def tall(levels, bottom=THE_UNKNOWN, rng=None):
    """A term with so many levels."""
    term = bottom
    for _ in range(levels - 1):
        if rng is None or rng.random() < 0.7:
            term = (ARRAY, term)
        else:
            term = rng.choice(((ITER, term), (SET, 1, term), (TUPLE, (term,)), (STRUCT, (0, (term,), ())),
                               (STRUCT, (0, (), ((1, term),))),
                               (PROJECTION, term, (0, (), ()), 0, ()), (PROJECTION, I8, (0, (term,), ()), 0, ()),
                               (FUNCTION, (I8,), term), (MAP, 0, I8, term), (RANGE, 3, term), (REFERENCE, 1, term)))
    return term


def pads(nodes):
    """A term with so many nodes."""
    return THE_UNKNOWN if nodes == 1 else (TUPLE, (THE_UNKNOWN,) * (nodes - 1))


def quiet_pair(rng, nodes):
    """A pair with so many nodes, two or more, that binds nothing."""
    first = rng.randint(1, nodes - 1)
    pair = pads(first), pads(nodes - first)
    if rng.random() < 0.2 and nodes > 2:
        pair = var(0), pads(nodes - 1)
    return order(pair_kind(rng), rng.choice((0, 1, 9, 9)), *pair)


def binding_pair(script, nodes):
    """A new variable, and a pair with so many nodes, two or more, that binds it: compatible, incompatible or cancelled."""
    rng, new = script.rng, script.fresh()
    if nodes < 6 or rng.random() < 0.3:
        pair, checks = (new, I8 if nodes == 2 else (TUPLE, (I8,) * (nodes - 2))), rng.choice((1, 9))
    else:
        # The last parts are met first, and then two others, which clash where they have parts and not as many.
        first = rng.randint(1, nodes - 5)
        pair = (TUPLE, (pads(first), new)), (TUPLE, (pads(nodes - 4 - first), I8))
        checks = rng.choice((2, 3, 9, 9))
    script.pose(checks, *(pair if rng.random() < 0.5 else pair[::-1]))


def fill_nodes(script, left):
    """Pairs that bind, with so many nodes in all; between them some that bind nothing."""
    rng = script.rng
    while left > 0:
        nodes = max(2, min(left, rng.choice((2, 3, 10, 400, 1000, 1024, 2000, 2046))))
        if left - nodes == 1:
            nodes += 1
        binding_pair(script, nodes)
        left -= nodes
        if rng.random() < 0.3:
            script.orders.append(quiet_pair(rng, rng.choice((2, 3, 10, 400, max(2, left)))))


# Orders 9 to 20 with one node, two and three.
FEW_NODES = [bytes.fromhex(text) for text in (
    "0f 02", "0f 09 02", "0f 09 09 02", "10 00 02", "09 02 02", "0a 02 02", "0b 02 02", "0c 00 00 02", "0d 00 00 00 02",
    "0e 00 02 02", "11 00 00 00 00 00 00 02", "12 00 02 00 00 00", "13 02 00 00 00 02", "14 00 02")]

NOT_ISSUED = var(600)
# Orders 9 to 20 around a term: the bytes before it, the bytes behind it, and how many nodes these have.
AROUND = [(bytes.fromhex(before), bytes.fromhex(behind), nodes) for before, behind, nodes in (
    ("09", "02", 1), ("0a", "02", 1), ("0b", "02", 1), ("0c 00 00", "", 0), ("0d 00 00 00", "", 0), ("0e 00 02", "", 1), ("0f", "", 0),
    ("10 00", "", 0), ("11 00 00 00 00 00 00", "", 0), ("12 00", "00 00 00", 0), ("13", "00 00 00 02", 1), ("14 00", "", 0))]


def with_nodes(rng, nodes):
    """One of the orders 9 to 20 with so many nodes, or with two where these are fewer."""
    before, behind, more = rng.choice(AROUND)
    return before + written(pads(max(2, nodes) - more)) + behind


def at_the_edge(rng):
    """An order with a few nodes, now and then with a fault behind them."""
    pick = rng.random()
    if pick < 0.3:
        data = order(rng.choice((3, 5)), rng.choice((THE_UNKNOWN, var(0), pads(2), pads(3), NOT_ISSUED)))
    elif pick < 0.5:
        data = order(pair_kind(rng), 9, THE_UNKNOWN, rng.choice((var(0), I8, pads(2), NOT_ISSUED)))
    elif pick < 0.8:
        data = rng.choice(FEW_NODES)
    elif rng.ranged and pick < 0.95:
        return number_request(rng, 1, 2)
    else:
        return order(rng.choice((6, 6, 7, 8)))
    return data if rng.random() < 0.75 else rng.choice((data + b"\x00", data[:-1], data[:-1] + b"\x14"))


def limits(rng):
    script = Script(rng)
    pick = rng.random()
    if pick < 0.4:
        for _ in range(rng.choice((508, 510, 511, 512, 513))):
            kind = rng.choice((0, 0, 1, 2))
            site = script.count()
            script.placed((kind, site))
            if kind == 1:
                script.orders.append(number_request(rng, site, rng.choice((2, 9)), True))
            else:
                script.add(kind, site, *((0,), None, ())[kind])
        for _ in range(rng.randint(2, 6)):
            kind = rng.choice((0, 1, 2))
            if rng.random() < 0.5:
                # A place that is there, or a new one.
                site = rng.choice((rng.randrange(512), 600 + rng.randrange(3)))
                if kind == 1 and rng.random() < rng.ranged / 2:
                    script.orders.append(order(21, site, 2) + faulty_bounds(rng))
                elif kind == 1:
                    script.orders.append(number_request(rng, site, 2))
                else:
                    script.add(kind, site, *((0,), None, ())[kind])
            else:
                script.pose(9, var(rng.choice((0, 510, 511, 511, 512))), var(rng.choice((1, 511, 512))))
        if rng.random() < 0.7:
            script.add(rng.choice((6, 7, 8)))
            script.add(8)
        script.add(5, var(rng.choice((0, 509, 511, 512))))
    elif pick < 0.75:
        script.fresh()
        script.request(1)
        fill_nodes(script, 2048 + rng.choice((-3, -2, -1, 0, 0, 0, 1)))
        for _ in range(rng.randint(2, 8)):
            script.orders.append(at_the_edge(rng))
    elif pick < 0.9:
        script.add(0, 0, 0)
        for _ in range(rng.randint(1, 4)):
            levels = rng.choice((199, 200, 200, 201, 201, 202))
            term = tall(levels, rng.choice((THE_UNKNOWN, var(0), var(0), var(1), I8)), rng)
            kind = rng.choice((3, 3, 3, 4, 4, 4, 5, 5, 15))
            fields = {3: (term,), 4: (9, term, I8), 5: (term,), 15: (term,)}[kind]
            if kind == 4 and rng.random() < 0.5:
                fields = 300, var(0), term
            data = order(pair_kind(rng) if kind == 4 else kind, *fields)
            if rng.random() < 0.15:
                # The deepest term is missing or has an unlisted tag.
                data = data[:-1] + rng.choice((b"", b"\x14", b"\xff"))
            script.orders.append(data)
    else:
        script.add(0, 0, 0)
        for _ in range(rng.randint(1, 3)):
            nodes = rng.choice((2047, 2048, 2048, 2049, 2050))
            kind = rng.choice((3, 4, 5, 15, 9))
            first = rng.randint(1, nodes - 1)
            pair = pads(first), pads(nodes - first)
            fields = {3: (pads(nodes),), 4: (9,) + pair, 5: (pads(nodes),), 15: (pads(nodes),), 9: pair}[kind]
            data = order(pair_kind(rng) if kind == 4 else kind, *fields)
            if rng.random() < 0.3:
                data = rng.choice((data[:-1], data + b"\x02", data[:-1] + b"\x14"))
            script.orders.append(data)
        script.add(8)
    yield ROOM, script.sheet()


def repeats(rng):
    """Pairs of a small session, then nodes until few are left; then the pairs again, also with another k, and orders that just fit or do not."""
    script, session, done = started(rng, 4), Sheet(), 0

    def space_left():
        nonlocal done
        for each in script.orders[done:]:
            session.step(each, ROOM)
        done = len(script.orders)
        return Sheet.NODES - session.kept
    posed = [script.passed_over() if rng.random() < 0.3 else script.pair() for _ in range(rng.randint(1, 5))]
    posed = [(script.checks(),) + pair for pair in posed]
    for pair in posed + rng.choices(posed, k=rng.randrange(4)):
        script.pose(*pair)
    fill_nodes(script, space_left() - rng.choice((0, 2, 3, 6, 10, 20, 40)))
    for _ in range(rng.randint(4, 16)):
        space, pick = space_left() + rng.choice((-1, 0, 0, 1)), rng.random()
        if pick < 0.5:
            script.pose(*rng.choice(posed))
        elif pick < 0.6:
            script.pose(script.checks(), *rng.choice(posed)[1:])
        elif pick < 0.7:
            script.orders.append(quiet_pair(rng, max(2, space)))
        elif pick < 0.75:
            binding_pair(script, max(2, space))
        elif pick < 0.85:
            posed.append((script.checks(),) + script.pair())
            script.pose(*posed[-1])
        elif pick < 0.95:
            script.orders.append(with_nodes(rng, space))
        else:
            script.orders.append(at_the_edge(rng))
    shown = min(script.count(), max(0, space_left() - 1))
    script.add(5, (TUPLE, tuple(var(number) for number in range(shown))))
    script.add(8)
    yield ROOM, script.sheet()


def room(rng):
    """An output that ends at an answer, one byte before or one after."""
    sheet = next(rng.choice((session, chain, session))(rng))[1]
    if rng.random() < 0.2:
        # A faulty length where the output is full.
        sheet += rng.choice((b"\x80\x00", b"\x05\x00", b"\x80", b"\xff\xff\xff\xff\x1f", b"\x00"))
    ends = answer_ends(sheet)
    end = rng.choice(ends)
    for more in (-1, 0, 1):
        if end + more >= 0:
            yield end + more, sheet


def answer_ends(sheet):
    """The places after each answer, and 0."""
    out = reference.run(sheet).output
    ends, at = [0], 0
    while at < len(out):
        fields = reference.Reader(out)
        fields.at = at
        length = fields.number()
        at = fields.at + length
        ends.append(at)
    return ends


def full(rng):
    """Answers close to 32,768 bytes; some are the last of the sheet, and some are followed by others."""
    script = Script(rng)
    script.add(0, 0, 0)
    script.pose(9, var(0), (TUPLE, (I8,) * 500))
    # Each variable in an order 5 gives 1,003 bytes.
    wide = order(5, (TUPLE, (var(0),) * 10))
    script.orders += [wide] * 3
    small = session_script(rng)
    if rng.random() < 0.5:
        script.orders += [each for each in small.orders if each[0] not in (0, 1, 2, 6, 7)][:8]
    used = len(reference.run(script.sheet(), 1 << 20).output)
    last = rng.choice((order(8), order(5, var(0)), order(15, THE_UNKNOWN), order(0, 0, 0), b"", b"\x17", order(1, 5, 2), number_request(rng, 5, 2)))
    taken = len(reference.run(script.sheet() + framed(last), 1 << 20).output) - used
    fill = 32768 - used - rng.choice((0, taken)) + rng.choice((-1, 0, 0, 1))
    script.orders += filler(fill)
    script.orders += [last] * rng.choice((1, 1, 2))
    yield ROOM, script.sheet()


# The bytes of the answer that is a Tuple of so many Unknowns, and how many those are.
TUPLE_ANSWERS = {len(framed(b"\x00\x05" + number_bytes(count) + bytes(count))): count for count in range(1100)}


def filler(size):
    """Orders 5 with answers of so many bytes in all, but for a rest below 4."""
    orders = []
    while size >= 4:
        step = min(size, 1000)
        while step not in TUPLE_ANSWERS or 0 < size - step < 4:
            step -= 1
        orders.append(order(5, (TUPLE, (THE_UNKNOWN,) * TUPLE_ANSWERS[step])))
        size -= step
    return orders


def doubled(rng, most=7, checks=MOST):
    """Each variable stands for a term with the next one twice."""
    script = Script(rng)
    how_many = rng.randint(1, most)
    frame = rng.choice((lambda a, b: (TUPLE, (a, b)), lambda a, b: (SET, 0, (TUPLE, (a, b))), lambda a, b: (MAP, 0, a, b),
                        lambda a, b: (FUNCTION, (a,), b), lambda a, b: (STRUCT, (1, (a,), ((3, b),)))))
    # The first variable is asked for again at the end.
    first = rng.choice(((0, 0, 0), (2, 0), (0, 0, 1)))
    again = {(0, 0, 0): order(5, var(0)), (2, 0): order(2, 0), (0, 0, 1): order(1, 0, 2)}[first]
    script.placed(first)
    script.add(*first)
    for site in range(1, 2 * (how_many + 1)):
        script.placed((site, 0))
        script.add(0, site, 0)
    rows = list(range(how_many))
    if rng.random() < 0.5:
        rows.reverse()
    offset = how_many + 1
    for row in rows:
        for base, flip in ((0, 0), (offset, rng.choice((0, 0, 1)))):
            term = frame(var(base + row + 1), var(base + row + 1))
            script.pose(9, var(base + row), script.flipped(term, flip))
    leaf = rng.random()
    if leaf < 0.5:
        script.pose(9, var(how_many), rng.choice((I8, I32, THE_UNKNOWN, var(2 * how_many + 1))))
        script.pose(9, var(2 * how_many + 1), rng.choice((I8, (TUPLE, ()))))
    elif leaf < 0.6:
        script.pose(9, var(how_many), var(offset))
    elif leaf < 0.7:
        script.pose(9, var(how_many), (ARRAY, var(0)))
    first = rng.choice((MOST, 1000, 3 * 2 ** how_many - 1, 3 * 2 ** how_many - 2, rng.randrange(40)))
    script.pose(min(checks, first), var(0), var(offset))
    script.add(8)
    script.add(5, var(rng.randrange(how_many + 1)))
    script.pose(checks, var(0), var(offset))
    script.orders.append(again)
    yield ROOM, script.sheet()


def large_doubled(rng):
    """As many variables as there are; the Rust is not asked. Unequal terms take all checks that there are, so these are fewer."""
    yield from doubled(rng, 255, 20000)


def deep(rng):
    """Resolved terms that are deeper than any that is read."""
    script = Script(rng)
    pieces = rng.randint(2, 10)
    levels = rng.randint(2, 190)
    for site in range(pieces + 1):
        script.placed((site, 0))
        script.add(0, site, 0)
    for site in range(pieces):
        if 2048 > (levels + 2) * (site + 1):
            script.pose(5, var(site), tall(levels, var(site + 1), rng))
    script.add(5, var(0))
    script.pose(MOST, var(pieces), rng.choice((I8, var(0), THE_ERROR, var(1))))
    script.pose(100, var(0), var(0))
    script.add(5, var(0))
    script.add(8)
    yield ROOM, script.sheet()


class Marked(MarkedFields):
    """Marks the fields of the solver's orders too."""

    ORDERS = {**ORDERS, **{kind: row[:1] for kind, row in reference.ORDERS.items()}}

    def bound(self, level):
        start = self.at
        sign = self.byte()
        self.mark("sign", start)
        return [sign, self.number(), self.number()]


def damaged_order(data, rng):
    """An order with one field changed."""
    fields = Marked(data)
    try:
        fields.read()
    except (Refused, KeyError):
        pass
    marks = [mark for mark in fields.marks if mark[2] <= len(data)]
    if not marks or rng.random() < 0.25:
        return rng.choice((data + b"\x00", data[:-1], data + data[:1], b""))
    rare = [mark for mark in marks if mark[0] in ("member", "code", "sign")]
    mark = rng.choice(rare if rare and rng.random() < 0.6 else marks)
    return data[:mark[1]] + faulty_field(mark, rng) + data[mark[2]:]


def damaged(rng):
    script = session_script(rng)
    orders = script.orders
    if rng.random() < 0.1:
        falling = (STRUCT, (0, (), ((3, I8), (rng.choice((3, 2)), I8))))
        at = rng.randrange(len(orders) + 1)
        orders.insert(at, order(rng.choice((3, 5)), script.around(falling, 1)) if rng.random() < 0.5
                      else order(pair_kind(rng), 9, script.variable(), falling))
    pick = rng.random()
    if pick < 0.55:
        for _ in range(rng.choice((1, 1, 2, 3))):
            at = rng.randrange(len(orders))
            orders[at] = damaged_order(orders[at], rng)
        yield ROOM, joined(orders)
    elif pick < 0.75:
        at = rng.randrange(len(orders))
        size = len(orders[at])
        length = rng.choice((number_bytes(size + 1), number_bytes(max(0, size - 1)), number_bytes(size + 200), number_bytes(MOST),
                             not_shortest(rng), too_large(rng), b"\x80", b""))
        yield ROOM, joined(orders[:at]) + length + orders[at] + joined(orders[at + 1:])
    elif pick < 0.8:
        at = rng.randrange(len(orders) + 1)
        more = rng.choice((b"", bytes([rng.choice((21, 22, 27, 127, 128, 255))]), bytes([rng.randrange(23, 256)]) + b"\x00",
                           bytes([rng.choice((21, 23))]) + order(4, 9, script.variable(), I8)[1:]))
        yield ROOM, joined(orders[:at] + [more] + orders[at:])
    elif pick < 0.84:
        yield ROOM, rng.randbytes(rng.randrange(20))
    elif pick < 0.86:
        # Small orders of random small bytes.
        yield ROOM, joined(bytes(rng.randrange(10) for _ in range(rng.randrange(9))) for _ in range(rng.randrange(8)))
    else:
        sheet = joined(orders)
        for _ in range(rng.choice((1, 1, 2))):
            sheet = damaged_bytes(sheet, rng)
        yield ROOM, sheet


def mixed(rng):
    """All orders, up to 32,768 bytes in or out."""
    script = started(rng)
    size = rng.choice((2000, 8000, 33000))
    while sum(map(len, script.orders[-40:])) and len(script.sheet()) < size:
        for _ in range(20):
            script.step(MIXED)
        if rng.random() < 0.3:
            script.orders.append(random_order(rng))
    while len(script.sheet()) > LENGTH:
        script.orders.pop()
    yield ROOM, script.sheet()


def operations(rng):
    """Orders 9 to 20 of all sorts, between orders of a session that keeps nodes."""
    script = started(rng, 3)
    for _ in range(rng.choice((1, 2, 3, 4, 6))):
        if rng.random() < 0.4:
            script.step(STEPS)
        script.orders.append(random_order(rng))
    yield ROOM, script.sheet()


def edges(rng):
    """Orders 9 to 20 at the limits of what is read."""
    script = started(rng, 2)
    for _ in range(rng.randint(2, 4)):
        maker = Maker(rng, rng.randrange(9, 21)).order()
        if rng.random() < 0.5:
            maker.make_levels(rng.choice((199, 200, 200, 201, 201, 202)))
        else:
            maker.make_nodes(rng.choice((2047, 2048, 2048, 2049, 2049, 2050)))
        script.orders.append(maker.data())
    yield ROOM, script.sheet()


def shadowed(rng):
    """Orders 12, 13 and 18 in which few parameters stand in many places."""
    script = Script(rng)
    maker = script.maker
    maker.leaves = [GENERIC, GENERIC, GENERIC, SELF_TYPE, SELF_TYPE, BUILTIN]
    places = [(rng.randrange(2), rng.randrange(2)) for _ in range(2)]
    maker.pool, maker.pool_share = [(GENERIC,) + place for place in places] + [(SELF_TYPE, 0)], 0.7

    def terms(how_many):
        return [maker.term(rng.choice((1, 1, 2, 3))) for _ in range(how_many)]

    def listed(items):
        return (len(items),) + tuple(part for item in items for part in item)
    for _ in range(rng.randint(1, 5)):
        entries = [rng.choice(places) + (term,) for term in terms(rng.randint(1, 4))]
        receivers = [(rng.randrange(2), term) for term in terms(rng.randrange(4))]
        parameters = listed([rng.choice(places) for _ in range(rng.randint(0, 3))])
        given = listed(entries) + listed(receivers)
        kind = rng.choice((12, 12, 13, 18, 18))
        if kind == 18:
            arguments = terms(parameters[0] + (rng.random() < 0.1))
            script.add(18, *parameters, maker.term(4), *given, len(arguments), *arguments)
        else:
            script.add(kind, *given, *(parameters if kind == 13 else ()), maker.term())
    yield ROOM, script.sheet()


def every_room(rng):
    sheet = next(rng.choice((session, chain, operations, damaged))(rng))[1]
    size = len(reference.run(sheet).output)
    if size <= 80:
        for room_left in range(size + 2):
            yield room_left, sheet


NUMBER_BOUNDS = ((0, 0), (0, 100), (0, 200), (-1, 0), (-200, 5), (0, 70000), (-5, 2 ** 31), (0, 2 ** 32), (2 ** 63, 2 ** 63))


def number_fallback(rng):
    return rng.randrange(8) if rng.random() < 0.7 else rng.choice(CODES)


def requested(rng, site):
    """A number request with any fallback; a range is answered."""
    if rng.random() < rng.ranged:
        return order(21, site, number_fallback(rng)) + b"".join(bound(rng, value) for value in rng.choice(NUMBER_BOUNDS))
    return order(1, site, number_fallback(rng))


def numbers(rng):
    """Number variables that are joined, requested again, deferred and given defaults between; then what all of them resolve to.

    In some sheets all are floats at first."""
    script, count, floats = Script(rng), rng.randint(2, 7), rng.random() < 0.2
    for site in range(count):
        script.orders.append(order(1, site, 9) if floats else order(0, site, 1) if rng.random() < 0.15 else requested(rng, site))
        script.placed((site, 1))
    for _ in range(rng.randint(1, 2 * count)):
        one, other, pick = rng.randrange(count), rng.randrange(count), rng.random()
        if pick < 0.6:
            script.pose(9, var(one), var(other))
        elif pick < 0.7:
            script.pose(9, *rng.sample((var(one), (BUILTIN, rng.randrange(10))), 2))
        elif pick < 0.85:
            script.orders.append(requested(rng, one))
        else:
            script.orders.append(rng.choice((order(3, var(one)), order(5, var(one)), order(6), order(7))))
    for kind in rng.choice(((6,), (6,), (6, 7), (7, 6))):
        script.add(kind)
    script.add(5, (TUPLE, tuple(map(var, range(count)))))
    script.add(8)
    yield ROOM, script.sheet()


def strictly(rng):
    """Orders 22 between others: the Rust is left at the first that is answered."""
    rng.strict = rng.choice((0.2, 0.5, 1))
    yield from rng.choice((session, session, chain, repeats, damaged))(rng)


def with_damaged_pairs(rng):
    """A session with some orders 4 that have a faulty field, members that do not rise, or too many levels."""
    script = session_script(rng)
    for _ in range(rng.randint(2, 8)):
        left, right = script.pair()
        pick = rng.random()
        if pick < 0.2:
            right = (STRUCT, (0, (), ((3, right), (rng.choice((3, 2)), I8))))
        elif pick < 0.25:
            right = tall(rng.choice((200, 201, 202)), right, rng)
        data = order(4, script.checks(), left, right)
        script.orders.insert(rng.randrange(len(script.orders) + 1), data if 0.2 <= pick < 0.25 or rng.random() < 0.2 else damaged_order(data, rng))
    yield ROOM, script.sheet()


def refused_strictly(rng):
    """Sheets in which orders 4 are refused; some of these are orders 22, which are refused in the same way."""
    room_left, sheet = next(rng.choice((with_damaged_pairs, with_damaged_pairs, with_damaged_pairs, limits, limits, repeats))(rng))
    orders, rest = split(sheet)
    answers = split(reference.run(sheet, room_left).output)[0]
    for at, answer in enumerate(answers):
        if orders[at][:1] == b"\x04" and answer[0] and rng.random() < 0.8:
            orders[at] = b"\x16" + orders[at][1:]
    yield room_left, joined(orders) + rest


def ranges(rng):
    """Orders 21 between others, in some sheets beside orders 22: the Rust is left at the first that is answered."""
    rng.ranged, rng.strict = rng.choice((0.2, 0.5, 0.9)), rng.choice((0, 0, 0.3))
    yield from rng.choice((session, chain, numbers, numbers, numbers, limits, damaged))(rng)


def refused_ranges(rng):
    """Orders 21 that are refused between others, also where 512 variables exist."""
    if rng.random() < 0.2:
        script, most = Script(rng), rng.choice((511, 512))
        script.orders = [order(0, site, 0) for site in range(most)]
        script.orders += [range_request(rng, rng.choice((0, 600)), 2) if most == 512 else order(21, 600, 2) + faulty_bounds(rng) for _ in range(rng.randint(1, 4))]
        yield ROOM, joined(script.orders + [order(6), order(8)])
        return
    script = session_script(rng)
    for _ in range(rng.randint(2, 8)):
        data, pick = order(21, script.site(), rng.choice(CODES)), rng.random()
        if pick < 0.4:
            data += faulty_bounds(rng) + rng.choice((b"", b"", b"", b"\x00"))
        else:
            data += rng.choice((faulty_bounds(rng), bound(rng, -1) + bound(rng, 2 ** 63)))
            data = damaged_order(data, rng)
            if not reference.run(framed(data)).output[1]:
                continue
        script.orders.insert(rng.randrange(len(script.orders) + 1), data)
    yield ROOM, script.sheet()


# The shares of order 22 among the pairs of a sheet, and of order 21 among its number requests, of which each sheet has one.
STRICT = (0, 0, 0.5, 1)
RANGED = (0, 0, 0.5, 0.9)
FAMILIES = ((session, 0.41), (checks, 0.05), (chain, 0.09), (limits, 0.06), (repeats, 0.02), (room, 0.05), (full, 0.004), (doubled, 0.03),
            (large_doubled, 0.002), (deep, 0.006), (damaged, 0.25), (mixed, 0.004), (numbers, 0.05))
JUDGED = ((session, 0.30), (checks, 0.02), (chain, 0.07), (limits, 0.06), (repeats, 0.02), (room, 0.03), (full, 0.001), (doubled, 0.02),
          (large_doubled, 0.0005), (deep, 0.004), (damaged, 0.18), (mixed, 0.001), (operations, 0.25), (edges, 0.03),
          (shadowed, 0.05), (every_room, 0.004), (numbers, 0.01), (strictly, 0.03), (refused_strictly, 0.04),
          (ranges, 0.05), (refused_ranges, 0.04))


def sheets(how_many, seed, families=FAMILIES, strict=STRICT, ranged=RANGED):
    rng = Source(seed)
    made = 0
    makers, shares = zip(*families)
    while made < how_many:
        family = rng.choices(makers, shares)[0]
        rng.strict, rng.ranged = rng.choice(strict), rng.choice(ranged)
        for room_left, sheet in family(rng):
            if made < how_many and len(sheet) <= LENGTH:
                made += 1
                yield family.__name__, room_left, sheet


def main():
    parser = argparse.ArgumentParser(description=__doc__, formatter_class=argparse.RawDescriptionHelpFormatter)
    parser.add_argument("--sheets", type=int, default=5000, metavar="N")
    parser.add_argument("--seed", type=int, default=1, metavar="S")
    options = parser.parse_args()
    counts = {}
    for family, _, sheet in sheets(options.sheets, options.seed, JUDGED, (0,), (0,)):
        count, size = counts.get(family, (0, 0))
        counts[family] = count + 1, size + len(sheet)
    for family, (count, size) in sorted(counts.items()):
        print("%-16s%9d sheets%11d bytes" % (family, count, size))


if __name__ == "__main__":
    sys.exit(main())
