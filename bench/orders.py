#!/usr/bin/env python3
"""Counts the instructions of orders 9 to 20 for growing inputs, and prints Markdown tables.

  python3 bench/orders.py             every order, then the orders at the limits
  python3 bench/orders.py 12 20       these orders alone
  python3 bench/orders.py limits      the orders at the limits alone

It needs valgrind and crates/checker/out/checker. The instructions are those that
callgrind counts; they are the same in every run. With A an order and B the
same order with one byte too many, which is read, cleared and refused:

  whole      = (count of A A) - (count of A), less the same of the smallest
               order of the kind: reading, the operation, writing, clearing
  operation  = (count of A A) - (count of A B), less the same of the smallest
               order of the kind: the operation and writing its answer

Every answer is compared with that of tests/orders_reference.py. The reference
also counts what the operation should be linear in. The exit status is 1 where
the quotient of the largest size is over 2.5 times that of the second smallest,
or where that holds for reading and clearing, for each token.
"""

import collections
import os
import re
import resource
import subprocess
import sys

ROOT = os.path.dirname(os.path.dirname(os.path.abspath(__file__)))
sys.path.insert(0, os.path.join(ROOT, "tests"))

import orders_reference as reference  # noqa: E402
from orders_cases import (F64, G, I32, I64, NONE, RO, RW, U, arr, fun, gen, host, nom, p, params, proj,  # noqa: E402
                          ref, rule, self_, seq, set_, struct, subst, to, tup)
from orders_reference import GENERIC, SELF_TYPE, framed, member_of  # noqa: E402

PROGRAM = os.path.join(ROOT, "crates", "checker", "out", "checker")
NODES = (64, 128, 256, 512, 1024, 2047)
VISITS = (256, 512, 1024, 2048, 4096, 8192)
MOST_GROWTH = 2.5
INPUT = 32768
LEVELS = 198  # of a chain; with the Tuple around it 199, and 200 in order 10

# make(size) gives the bytes of an order in hexadecimal; measure is a name of MEASURES. Where base(size) gives another order,
# its operation is taken off, and its measure.
Shape = collections.namedtuple("Shape", "kind name measure make sizes base", defaults=[None])
Row = collections.namedtuple("Row", "size nodes bytes tokens whole read operation steps")


# What the reference counts

def flat(part):
    """The tokens of a term, of a nominal or of a list of either."""
    if not isinstance(part, tuple):
        return [part]
    listed = not part or isinstance(part[0], tuple)
    out = [len(part)] if listed else []
    for inner in part:
        out += flat(inner)
    return out


def front(receiver, interface, member, arguments):
    """The tokens of a projection or of a rule, in the order in which they are compared."""
    return flat(receiver) + flat(interface) + [member] + flat(arguments)


def compared(left, right):
    """How many tokens are compared up to the first difference."""
    for at, (a, b) in enumerate(zip(left, right)):
        if a != b:
            return at + 1
    return min(len(left), len(right))


class Counting(reference.Orders):
    """Carries an order out and counts tokens, searches, visits and what is compared."""

    def __init__(self, data):
        super().__init__(data)
        self.tokens = self.searched = self.entries = self.listed_parameters = 0
        self.known = {}

    def number(self):
        self.tokens += 1
        return super().number()

    def listed(self, how_many):
        self.tokens += 1
        return super().listed(how_many)

    def term(self, level):
        found = super().term(level)
        self.tokens += found[0] != reference.INFERENCE
        return found

    def rows(self, names, level):
        found = super().rows(names, level)
        if names == ("one_number", "one_number"):
            self.listed_parameters = len(found)
        elif names[-1] == "one_term" and len(names) < 4:
            self.entries += len(found)
        return found

    def substituted(self, term, replacement):
        if term[0] in (GENERIC, SELF_TYPE):
            self.searched += self.entries + self.listed_parameters
        return super().substituted(term, replacement)

    def resolved_in(self, parameters, term):
        self.searched += len(parameters) if term[0] == GENERIC else 0
        return super().resolved_in(parameters, term)

    def count_members(self, nominal, required, all_of_them):
        for member, term in required[2]:
            names = [name for name, _ in nominal[2]]
            self.searched += names.index(member) + 1 if member in names else len(names)
            if not all_of_them and member_of(nominal, member) != term:
                return

    def satisfies(self, nominal, required):
        self.count_members(nominal, required, False)
        return super().satisfies(nominal, required)

    def satisfies_for(self, nominal, required, receiver):
        self.count_members(nominal, required, True)
        return super().satisfies_for(nominal, required, receiver)

    def walked_from(self, term, lookup):
        def counting(projection):
            if projection not in self.known:
                self.known[projection] = lookup(projection), self.looked_through(projection)
            value, cost = self.known[projection]
            self.searched += cost
            return value
        return super().walked_from(term, counting)

    def with_associated_types(self, term, interface, owner):
        self.looked_through = lambda projection: len(interface[1]) + len(interface[2])
        return super().with_associated_types(term, interface, owner)

    def normalised(self, rules, term):
        fronts = [front(receiver, interface, *rest) for interface, receiver, *rest in (found[:4] for found in rules)]

        def cost(projection):
            own, total = front(*projection[1:]), 0
            for other in fronts:
                total += compared(own, other)
                if own == other:
                    break
            return total
        self.looked_through = cost
        return super().normalised(rules, term)

    @property
    def visits(self):
        return self.VISITS - self.visits_left


MEASURES = {
    "tokens": lambda counts, answer: counts.tokens,
    "tokens + answer bytes": lambda counts, answer: counts.tokens + len(answer),
    "tokens + Generics x list": lambda counts, answer: counts.tokens + counts.searched,
    "tokens + SelfTypes x list": lambda counts, answer: counts.tokens + counts.searched,
    "tokens + members x members": lambda counts, answer: counts.tokens + counts.searched,
    "visits": lambda counts, answer: counts.visits,
    "projections x members": lambda counts, answer: counts.searched,
    "rule tokens compared": lambda counts, answer: counts.searched,
    "visits + projections x members": lambda counts, answer: counts.visits + counts.searched,
    "visits + rule tokens compared": lambda counts, answer: counts.visits + counts.searched,
}


# Terms

def leaves(count):
    """Small terms that every question has to look at."""
    items = [I32, host(300), F64, struct(201)]
    return [items[n % 4] for n in range(count)]


def wide(nodes):
    return tup(*leaves(nodes - 1))


def chain(levels, leaf):
    """A term of so many levels and nodes, of six kinds."""
    layers = [lambda t: arr(t), lambda t: ref(0, t), lambda t: tup(t), lambda t: fun([], t), lambda t: set_(RW, t),
              lambda t: struct(201, [t])]
    for level in range(levels - 1):
        leaf = layers[level % 6](leaf)
    return leaf


def deep(nodes, leaf=I32, levels=LEVELS):
    """A Tuple of chains, each of so many levels but for the last."""
    whole, rest = divmod(nodes - 1, levels)
    return tup(*[chain(levels, leaf)] * whole + [chain(rest, leaf)] * (rest > 0))


def nested(nodes, make, leaf=I32):
    """A tree of terms with three children each."""
    if nodes < 4:
        return arr(leaf, nodes - 1)
    third = (nodes - 1) // 3
    return make(*(nested(n, make, leaf) for n in (third, third, nodes - 1 - 2 * third)))


def nominals(nodes, leaf=I32):
    return nested(nodes, lambda a, b, c: struct(202, [a], [(5, b), (6, c)]), leaf)


def projections(nodes, leaf=I32):
    return nested(nodes, lambda a, b, c: proj(a, nom(203, [b], [(9, c)]), 8), leaf)


# Positions take two bytes at every size.
FIRST = 128


def generics(count, owner=1):
    return tup(*(gen(owner, FIRST + n) for n in range(count)))


def entries(count):
    return [(1, FIRST + n, I32) for n in range(count)]


def pairs(count, owner=1):
    return params(*((owner, FIRST + n) for n in range(count)))


# Orders 9 to 11

def twice(make, outer=lambda side, term: term):
    """Two equal terms with half of the nodes each."""
    return lambda nodes: outer(0, make(nodes // 2 - 1)) + outer(1, make(nodes // 2 - 1))


def weakened(side, term):
    return set_((RW, RO)[side], term)


def filled(make):
    """A term with holes, and the same without."""
    return lambda nodes: make(nodes // 2, U) + make(nodes // 2, I64)


COMPARED = [
    Shape(kind, name, "tokens", twice(make, outer), NODES)
    for kind, outer in ((9, lambda side, term: term), (10, weakened))
    for name, make in (("wide", wide), ("199 levels", deep), ("nominals", nominals), ("equal projections", projections))
]
RECOVERED = [
    Shape(11, "wide, all Unknown", "tokens", filled(lambda nodes, leaf: tup(*[leaf] * (nodes - 1))), NODES),
    Shape(11, "199 levels", "tokens", filled(deep), NODES),
    Shape(11, "nominals", "tokens", filled(nominals), NODES),
    Shape(11, "one Unknown, all taken", "tokens", lambda nodes: U + wide(nodes - 1), NODES),
]


# Orders 12 to 14 and 18

def searched(kind, nodes):
    """Half of the nodes are entries, half are Generics that none of them has."""
    half = nodes // 2 - 1
    rows = subst(entries(half))
    return rows + (params() if kind == 13 else "") + generics(half, 2)


SUBSTITUTED = [
    Shape(12, "wide", "tokens", lambda nodes: subst([(0, 0, I32)]) + tup(G, *leaves(nodes - 3)), NODES),
    Shape(12, "199 levels", "tokens", lambda nodes: subst([(0, 0, I32)]) + deep(nodes - 1, G), NODES),
    Shape(12, "Generics, entries", "tokens + Generics x list", lambda nodes: searched(12, nodes), NODES),
    Shape(12, "SelfTypes, receivers", "tokens + SelfTypes x list",
          lambda nodes: subst([], [(n, I32) for n in range(nodes // 2 - 1)])
          + tup(*(self_(n) for n in range(nodes // 2 - 1))), NODES),
    Shape(12, "a wide entry put in twice", "tokens + answer bytes",
          lambda nodes: subst([(0, 0, wide(nodes - 3))]) + tup(G, G), NODES),
    Shape(13, "wide", "tokens", lambda nodes: subst([(0, 0, I32)]) + params((0, 1)) + tup(G, *leaves(nodes - 3)), NODES),
    Shape(13, "199 levels", "tokens", lambda nodes: subst([(0, 0, I32)]) + params((0, 1)) + deep(nodes - 1, G), NODES),
    Shape(13, "Generics, entries", "tokens + Generics x list", lambda nodes: searched(13, nodes), NODES),
    Shape(13, "Generics, parameters", "tokens + Generics x list",
          lambda nodes: NONE + pairs(nodes // 2) + generics(nodes - 1), NODES),
    Shape(14, "wide, all SelfType", "tokens", lambda nodes: "05" + I32 + tup(*[self_(5)] * (nodes - 2)), NODES),
    Shape(14, "199 levels", "tokens", lambda nodes: "05" + I32 + deep(nodes - 1, self_(5)), NODES),
    Shape(14, "a wide term put in twice", "tokens + answer bytes",
          lambda nodes: "05" + wide(nodes - 3) + tup(self_(5), self_(5)), NODES),
    Shape(18, "wide", "tokens", lambda nodes: params((0, 0)) + tup(G, *leaves(nodes - 3)) + NONE + seq(I32), NODES),
    Shape(18, "199 levels", "tokens", lambda nodes: params((0, 0)) + deep(nodes - 1, G) + NONE + seq(I32), NODES),
    Shape(18, "Generics, parameters with arguments", "tokens + Generics x list",
          lambda nodes: pairs(nodes // 2 - 1) + generics(nodes // 2 - 1) + NONE + seq(*[I32] * (nodes // 2 - 1)), NODES),
    Shape(18, "Generics, parameters and entries", "tokens + Generics x list",
          lambda nodes: pairs(nodes // 3 - 1, 3) + generics(nodes // 3 - 1) + subst(entries(nodes // 3 - 1))
          + seq(*[I32] * (nodes // 3 - 1)), NODES),
]


# Orders 15 to 17

def members(count, first=0):
    return [(first + n, I32) for n in range(count)]


def reflexive(nodes):
    """An eighth of the nodes are required projections, whose interfaces require two members."""
    given = nodes // 2
    last = members(2, given - 2)
    required = [(given + n, proj(U, nom(1, [], last), given + n)) for n in range(nodes // 8 - 1)]
    return nom(1, [], members(given)) + nom(1, [], required) + U


ASKED = [
    Shape(15, "wide", "tokens", wide, NODES),
    Shape(15, "199 levels", "tokens", deep, NODES),
    Shape(15, "nominals", "tokens", nominals, NODES),
    Shape(15, "projections", "tokens", projections, NODES),
    Shape(16, "wide", "tokens", lambda nodes: params((0, 0)) + wide(nodes), NODES),
    Shape(16, "199 levels", "tokens", lambda nodes: params((0, 0)) + deep(nodes, G), NODES),
    Shape(16, "projections", "tokens", lambda nodes: params((0, 0)) + projections(nodes, G), NODES),
    Shape(16, "Generics, parameters", "tokens + Generics x list",
          lambda nodes: pairs(nodes // 2) + tup(*(gen(1, FIRST + n // 2) for n in range(nodes - 1))), NODES),
    Shape(17, "wide arguments", "tokens", lambda nodes: nom(1, leaves(nodes // 2 - 1)) * 2 + U, NODES),
    Shape(17, "199 levels", "tokens", lambda nodes: nom(1, [deep(nodes // 2 - 1)]) * 2 + U, NODES),
    Shape(17, "members required, given", "tokens + members x members",
          lambda nodes: nom(1, [], members(nodes // 2 - 1)) * 2 + U, NODES),
    Shape(17, "reflexive projections, given", "tokens + members x members", reflexive, NODES),
]


# Orders 19 and 20. The walk goes 64 levels down, so that deeper terms cost no more.

OWN = proj(I32, nom(8, [], [(0, F64)]), 0)  # 3 nodes


def walked(kind, term):
    """Without anything that the term's projections could be looked up in."""
    return term + nom(99) + I32 if kind == 19 else seq() + term


def inserted(kind, visits):
    """A shared Tuple of 29 is put in again and again: 32 visits and 31 children each time."""
    term, value = tup(*[p(1)] * ((visits - 1) // 32)), tup(*[U] * 29)
    return term + nom(1, [], [(0, value)]) + I32 if kind == 19 else seq(to(1, value)) + term


def own_members(kind, visits):
    """A Tuple as own member of an own member, ten levels: it is walked again at each level."""
    term = tup(*leaves(visits // 12))
    for _ in range(10):
        term = proj(I32, nom(8, [], [(0, term)]), 0)
    return walked(kind, term)


def wide_owner(nodes):
    """Every receiver is compared with the owner to its end."""
    owner = tup(*leaves(29))
    return tup(*[proj(owner, nom(1), 0)] * (nodes // 31 - 1)) + nom(1, [], [(0, I32)]) + owner


def looked_up(nodes, all_of_them=True):
    """Half of the nodes are members of the interface; the last one is looked up again and again."""
    last = nodes // 2 - 1
    known = members(last + 1) if all_of_them else members(1, last)
    return tup(*[proj(I32, nom(1), last)] * (nodes // 4 - 1)) + nom(1, [], known) + I32


def put_in(nodes):
    """The interface has no such member and is put in, twice."""
    return tup(*[proj(I32, nom(1), 9999)] * 2) + nom(1, [], members(nodes - 6)) + I32


def same_but_member(nodes, rules=True):
    """Rules and projections, a quarter each, which differ in the member alone."""
    count = nodes // 4 - 1
    given = [rule(nom(1), struct(4), 1000 + n, [], I32) for n in range(count if rules else 0)]
    return seq(*given) + tup(*(proj(struct(4), nom(1), n) for n in range(count)))


def long_rules(nodes, rules=True):
    """The same with 29 arguments each, of which the last ones differ."""
    same = leaves(28)
    count = nodes // 64
    given = [rule(nom(1), struct(4), 5, same + [gen(1, n)], I32) for n in range(count if rules else 0)]
    return seq(*given) + tup(*(proj(struct(4), nom(1), 5, *same, gen(2, n)) for n in range(count)))


def deep_rules(nodes, rules=True):
    """The same with receivers of 30 levels, of which the innermost differ."""
    count = nodes // 64
    given = [rule(nom(1), chain(30, gen(1, n)), 5, [], I32) for n in range(count if rules else 0)]
    return seq(*given) + tup(*(proj(chain(30, gen(2, n)), nom(1), 5) for n in range(count)))


def doubled(visits):
    """Each value has the next projection twice."""
    count = visits.bit_length() - 4
    rules = [to(n, tup(p(n + 1), p(n + 1))) for n in range(count)]
    return seq(*rules, to(count, I32)) + p(0)


def unmatched(rules, visits):
    """A shared Tuple of 40 projections, each compared with every rule: 83 visits each time. In the end all is
    replaced by an own member, so that the answer is short."""
    other = proj(struct(4), nom(1), 0)
    given = [to(2, tup(*[other] * 40))] + [rule(nom(1), struct(4), 1000 + n, [], I32) for n in range(rules - 1)]
    return seq(*given) + proj(tup(*[p(2)] * ((visits - 4) // 83)), nom(9, [], [(0, I32)]), 0)


def expanded(nodes, rules=True):
    return unmatched(nodes // 8 if rules else 1, 4 * nodes - 4)


def without(make):
    """The same projections with nothing to look through."""
    return lambda nodes: make(nodes, False)


NORMALISED = [
    Shape(kind, name, "visits", lambda size, kind=kind, make=make: make(kind, size), sizes)
    for kind in (19, 20)
    for name, make, sizes in (
        ("wide", lambda kind, nodes: walked(kind, tup(OWN, *leaves(nodes - 6))), NODES),
        ("62 levels", lambda kind, nodes: walked(kind, tup(OWN, deep(nodes - 6, levels=60))), NODES),
        ("projections", lambda kind, nodes: walked(kind, projections(nodes - 1)), NODES),
        ("a shared value, to 8,192 visits", inserted, VISITS),
        ("own members of own members", own_members, VISITS))
] + [
    Shape(19, "projections, members", "projections x members", looked_up, NODES, without(looked_up)),
    Shape(19, "a wide owner", "visits", wide_owner, NODES),
    Shape(19, "the interface put in", "visits + projections x members", put_in, NODES),
    Shape(20, "projections, rules", "rule tokens compared", same_but_member, NODES, without(same_but_member)),
    Shape(20, "projections, long rules", "rule tokens compared", long_rules, NODES, without(long_rules)),
    Shape(20, "projections, deep rules", "rule tokens compared", deep_rules, NODES, without(deep_rules)),
    Shape(20, "values with two projections", "visits + rule tokens compared", doubled, VISITS),
    Shape(20, "shared projections, rules", "rule tokens compared", expanded, NODES, without(expanded)),
]
SHAPES = sorted(COMPARED + RECOVERED + SUBSTITUTED + ASKED + NORMALISED, key=lambda shape: shape.kind)
SMALLEST = {9: U + U, 10: U + U, 11: U + U, 12: NONE + U, 13: NONE + params() + U, 14: "00" + U + U, 15: U, 16: params() + U,
            17: nom(0) + nom(0) + U, 18: params() + U + NONE + seq(), 19: U + nom(0) + U, 20: seq() + U}


# Counting

def instructions(orders):
    """The instructions of a run that reads and answers these orders."""
    data = b"".join(map(framed, orders))
    assert len(data) <= INPUT
    done = subprocess.run(["valgrind", "--tool=callgrind", "--callgrind-out-file=/dev/null", PROGRAM], input=data,
                          capture_output=True)
    found = re.search(rb"Collected : (\d+)", done.stderr)
    if done.returncode != 0 or not found:
        sys.exit("the program or valgrind failed:\n" + done.stderr.decode())
    if done.stdout != b"".join(framed(answer_of(order)) for order in orders):
        sys.exit("an answer is not that of the reference: " + orders[0].hex()[:100])
    return int(found.group(1))


KNOWN = {}


def answer_of(order):
    if order not in KNOWN:
        KNOWN[order] = reference.answer(order)
    return KNOWN[order]


def order_of(kind, fields):
    return bytes([kind]) + bytes.fromhex(fields)


def cost(order):
    """The instructions of an order, and those of its operation alone."""
    both = instructions([order, order])
    return both - instructions([order]), both - instructions([order, order + b"\0"])


def counted(shape, make, size):
    """An order, what the reference counts of it, and its measure."""
    order = order_of(shape.kind, make(size))
    counts = Counting(order)
    answer = b"\0" + counts.order()
    assert answer == answer_of(order)
    return order, counts, MEASURES[shape.measure](counts, answer)


def measured(shape, size, smallest):
    order, counts, steps = counted(shape, shape.make, size)
    whole, operation = (found - least for found, least in zip(cost(order), smallest))
    read = whole - operation
    if shape.base:
        base, _, fewer = counted(shape, shape.base, size)
        operation -= cost(base)[1] - smallest[1]
        steps -= fewer
    return Row(size, counts.nodes_read, len(order), counts.tokens, whole, read, operation, steps)


# Printing

def table(columns, rows, texts=1):
    """The first columns are texts, the others numbers."""
    print("| " + " | ".join(columns) + " |")
    print("|" + "---|" * texts + "---:|" * (len(columns) - texts))
    for row in rows:
        print("| " + " | ".join(row) + " |", flush=True)
    print()


def shown(number):
    return "{:,}".format(number)


def cells(row, shape):
    return [shape.name, shown(row.nodes), shown(row.bytes), shown(row.tokens), shown(row.whole),
            "%.0f" % (row.whole / row.tokens), "%.0f" % reading(row), shown(row.operation), shown(row.steps), "%.1f" % quotient(row)]


def quotient(row):
    return row.operation / row.steps


def reading(row):
    """Reading and clearing, for each token."""
    return row.read / row.tokens


def growth(rows, value=quotient):
    """The value at the largest size against that at the second smallest."""
    return value(rows[-1]) / value(rows[1])


def order_tables(kind):
    """Prints a table for each shape of an order, and gives the lines of the summary."""
    smallest = cost(order_of(kind, SMALLEST[kind]))
    print("## Order %d\n\nThe smallest order takes %s instructions, %s of them for its operation.\n"
          % (kind, shown(smallest[0]), shown(smallest[1])), flush=True)
    lines = []
    for shape in SHAPES:
        if shape.kind == kind:
            rows = [measured(shape, size, smallest) for size in shape.sizes]
            table(["shape", "nodes", "bytes", "tokens", "whole", "per token", "read, per token", "operation", shape.measure,
                   "quotient"],
                  [cells(row, shape) for row in rows])
            lines.append((shape, rows))
    return lines


def summary(lines):
    """Prints a line for each shape. True where no quotient grows too much."""
    print("## Instructions of the operation, divided by what it should be linear in\n")
    table(["order", "shape", "linear in", "largest"] + ["size %d" % (n + 1) for n in range(len(NODES))] + ["growth"],
          [[str(shape.kind), shape.name, shape.measure, shown(rows[-1].steps)]
           + ["%.1f" % quotient(row) for row in rows] + ["%.2f" % growth(rows)] for shape, rows in lines], 3)
    too_much = [shape for shape, rows in lines if max(growth(rows), growth(rows, reading)) > MOST_GROWTH]
    for shape in too_much:
        print("Order %d, %s: the quotient grows by more than %.1f." % (shape.kind, shape.name, MOST_GROWTH))
    return not too_much


# Orders at the limits

def all_keys(count):
    """Parameters of two bytes each, none of which is gen(127, 127)."""
    return params(*((n % 127, n % 128) for n in range(count)))


def most_rules():
    """3,549 projections, each compared with every rule; a shared value twice, so that few nodes are needed."""
    other = proj(struct(4), nom(1), 0)
    given = [to(2, tup(*[p(3)] * 13)), to(3, tup(*[other] * 13))]
    given += [rule(nom(1), struct(4), 1000 + n, [], I32) for n in range(970)]
    return seq(*given) + proj(tup(*[p(2)] * 21), nom(9, [], [(0, I32)]), 0)


def most_members():
    """3,549 projections of the last member, whose value is that projection: it stays."""
    last = proj(I32, nom(1), 1800)
    values = [(0, tup(*[proj(I32, nom(1), 1)] * 13)), (1, tup(*[last] * 13))] + members(1798, 2) + [(1800, last)]
    return proj(tup(*[p(1)] * 21), nom(9, [], [(0, I32)]), 0) + nom(1, [], values) + I32


LIMITS = [
    (12, "1,022 Generics, 1,022 entries", searched(12, 2047)),
    (13, "2,047 Generics, 13,300 parameters", NONE + all_keys(13300) + tup(*[gen(127, 127)] * 2047)),
    (16, "2,047 Generics, 13,300 parameters", all_keys(13300) + tup(*[gen(0, 0)] * 2047)),
    (17, "682 members required, the last of 1,365 given", nom(1, [], members(1365)) + nom(1, [], members(682, 683)) + U),
    (18, "1,023 Generics, the last of 1,023 parameters",
     pairs(1023) + tup(*[gen(1, FIRST + 1022)] * 1023) + NONE + seq(*[I32] * 1023)),
    (19, "3,843 projections, 1,801 members", most_members()),
    (20, "3,549 projections, 972 rules", most_rules()),
]


def spent():
    used = resource.getrusage(resource.RUSAGE_CHILDREN)
    return used.ru_utime + used.ru_stime


def seconds(orders):
    """The least processor time of five runs; what else runs on the machine counts little."""
    data = b"".join(map(framed, orders))
    best = float("inf")
    for _ in range(5):
        start = spent()
        subprocess.run([PROGRAM], input=data, stdout=subprocess.DEVNULL, check=True)
        best = min(best, spent() - start)
    return best


def limits():
    """Each order alone, less an empty input."""
    print("## Orders at the limits\n")
    none, start, rows = instructions([]), seconds([]), []
    for kind, name, fields in LIMITS:
        order = order_of(kind, fields)
        counts = Counting(order)
        counts.order()
        rows.append([str(kind), name, shown(counts.nodes_read), shown(len(order)), shown(counts.visits),
                     shown(instructions([order]) - none), "%.0f" % (1000 * (seconds([order]) - start))])
    table(["order", "shape", "nodes", "bytes", "visits", "instructions", "milliseconds"], rows, 2)


def main(words):
    if not os.path.exists(PROGRAM):
        sys.exit("there is no crates/checker/out/checker")
    if words == ["limits"]:
        limits()
        return 0
    kinds = [int(word) for word in words] or sorted(SMALLEST)
    lines = [line for kind in kinds for line in order_tables(kind)]
    passed = summary(lines)
    if not words:
        limits()
    return 0 if passed else 1


if __name__ == "__main__":
    sys.exit(main(sys.argv[1:]))
