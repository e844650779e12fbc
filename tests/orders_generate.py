"""Random orders of kinds 9 to 20, for orders_compare.py and sheet_generate.py.

random_orders(how_many, seed) gives the same orders for the same seed.
"""

import random

from orders_reference import (
    ARRAY, BUILTIN, ENUM, ERROR, FUNCTION, GENERIC, HOST, INFERENCE, ITER, MAP, NATIVE_OBJECT, NOMINALS, PROJECTION, RANGE,
    REFERENCE, SELF_TYPE, SET, STRUCT, THE_ERROR, THE_UNKNOWN, TRAIT, TUPLE, UNKNOWN, Orders, children, nominal_written,
    number_bytes, with_children, written)
from terms_generate import damaged_bytes, not_shortest, too_large
from terms_reference import Refused

KINDS = tuple(range(9, 21))
# The kinds of orders that are told to the session.
SESSION = tuple(range(9)) + (21, 22)
I8, NEVER = (BUILTIN, 0), (BUILTIN, 10)
# A term that add_inside puts into an order.
NEW = (HOST, 0)
HOLES = (THE_UNKNOWN, THE_ERROR, (INFERENCE, 0))


class MarkedFields(Orders):
    """Reads an order and does nothing; also marks the places of its fields."""

    def __init__(self, data):
        super().__init__(data)
        self.marks = []
        self.deepest = None, 0

    def mark(self, what, start, detail=None):
        self.marks.append((what, start, self.at, detail))

    def number(self):
        start = self.at
        value = super().number()
        self.mark("number", start, value)
        return value

    def listed(self, how_many):
        value = super().listed(how_many)
        self.mark("code", self.at - 1, how_many)
        return value

    def term(self, level):
        self.marks.append(("tag", self.at, self.at + 1, None))
        if level > self.deepest[1]:
            self.deepest = self.at, level
        return super().term(level)

    def members(self, level):
        last = None
        found = []
        for _ in range(self.number()):
            start = self.at
            member = self.number()
            if last is not None:
                self.marks[-1] = ("member", start, self.at, last)
            last = member
            found.append((member, self.term(level)))
        return [tuple(found)]

    def read(self):
        return self.row(self.ORDERS[self.byte()][0], 1)


class Bare:
    """A nominal as a field of an order."""

    def __init__(self, nominal):
        self.nominal = nominal


def height(term):
    return 1 + max(map(height, children(term)), default=0)


class Maker:
    """Makes one formed order.

    pieces are its fields: numbers, terms and nominals.
    """

    def __init__(self, rng, kind):
        self.rng = rng
        self.kind = kind
        self.pieces = []
        self.big_numbers = rng.random() < 0.2
        # What a leaf may be, and the projections that take part in an order.
        self.leaves = [UNKNOWN, ERROR, INFERENCE, BUILTIN, BUILTIN, BUILTIN, TUPLE, STRUCT, TRAIT, HOST, GENERIC, GENERIC,
                       SELF_TYPE]
        self.pool = []
        self.pool_share = 0.4

    def chance(self, share):
        return self.rng.random() < share

    # Numbers

    def number(self):
        rng = self.rng
        if not self.big_numbers or self.chance(0.7):
            return rng.randrange(3)
        if self.chance(0.6):
            return rng.randrange(300)
        edge = 128 ** rng.randrange(1, 5)
        return max(0, min(Orders.MOST, edge + rng.randrange(-2, 3), Orders.MOST - rng.choice((0, 1))))

    # Terms

    def leaf(self):
        rng = self.rng
        if self.pool and self.chance(self.pool_share):
            return rng.choice(self.pool)
        tag = rng.choice(self.leaves)
        if tag in (INFERENCE, HOST, SELF_TYPE):
            return (tag, self.number())
        if tag == GENERIC:
            return (tag, self.number(), rng.randrange(3))
        if tag == BUILTIN:
            return (tag, rng.choice((0, 1, 2, 2, 7, 8, 9, 10, 11, rng.randrange(32))))
        if tag == TUPLE:
            return (tag, ())
        if tag in NOMINALS:
            return (tag, (self.number(), (), ()))
        return (tag,)

    def nominal(self, terms):
        split = self.rng.randint(0, len(terms))
        return (self.number(), tuple(terms[:split]), self.members(terms[split:]))

    def members(self, terms):
        names = sorted(self.rng.sample(range(len(terms) + 3), len(terms)))
        if self.big_numbers and terms and self.chance(0.2):
            names[-1] = Orders.MOST
        return tuple(zip(names, terms))

    def around(self, parts):
        """A term with these children."""
        rng = self.rng
        parts = list(parts)
        if len(parts) == 1 and self.chance(0.6):
            tag = rng.choice((REFERENCE, ITER, RANGE, ARRAY, SET, SET))
            if tag in (ITER, ARRAY):
                return (tag, parts[0])
            return (tag, rng.randrange(4 if tag == RANGE else 2), parts[0])
        if len(parts) == 2 and self.chance(0.3):
            return (MAP, rng.randrange(2), parts[0], parts[1])
        tag = rng.choice((TUPLE, FUNCTION, PROJECTION, NATIVE_OBJECT, STRUCT, ENUM, TRAIT))
        if tag == PROJECTION and self.chance(0.4):
            tag = TUPLE
        if tag == TUPLE:
            return (tag, tuple(parts))
        if tag == FUNCTION:
            return (tag, tuple(parts[:-1]), parts[-1])
        if tag == PROJECTION:
            split = rng.randint(1, len(parts))
            return (tag, parts[0], self.nominal(parts[1:split]), self.number(), tuple(parts[split:]))
        return (tag, self.nominal(parts))

    def term(self, size=None):
        """A term of about so many nodes."""
        rng = self.rng
        if size is None:
            size = rng.choice((1, 2, 3, 4, 5, 6, 8, 12))
        if size <= 1:
            return self.leaf()
        how_many = min(size - 1, rng.choice((1, 1, 2, 2, 3, 4)))
        cuts = sorted(rng.sample(range(1, size - 1), how_many - 1)) if how_many > 1 else []
        sizes = [b - a for a, b in zip([0] + cuts, cuts + [size - 1])]
        return self.around([self.term(part) for part in sizes])

    def without(self, *tags):
        self.leaves = [tag for tag in self.leaves if tag not in tags]

    # Copies with a change

    def somewhere(self, term, change, stop=0.25):
        parts = list(children(term))
        if not parts or self.chance(stop):
            return change(term)
        at = self.rng.randrange(len(parts))
        parts[at] = self.somewhere(parts[at], change, stop)
        return with_children(term, parts)

    def hole(self, term):
        return self.rng.choice(HOLES)

    def other(self, term):
        """The term with its head changed in one place."""
        rng = self.rng
        tag = term[0]
        if tag in (REFERENCE, SET, MAP):
            return (tag, 1 - term[1]) + term[2:] if self.chance(0.8) else (MAP, term[1], term[-1], term[-1])
        if tag == RANGE:
            return (tag, (term[1] + rng.randrange(1, 4)) % 4, term[2])
        if tag == TUPLE:
            return (tag, term[1] + (I8,)) if self.chance(0.5) or not term[1] else (tag, term[1][:-1])
        if tag == FUNCTION:
            return (tag, term[1] + (I8,), term[2]) if self.chance(0.5) or not term[1] else (tag, term[1][1:], term[2])
        if tag in NOMINALS:
            if self.chance(0.2):
                return (rng.choice([t for t in NOMINALS if t != tag]), term[1])
            return (tag, self.other_nominal(term[1]))
        if tag == PROJECTION:
            _, receiver, interface, member, arguments = term
            pick = rng.randrange(5)
            if pick == 0:
                return (tag, self.other(receiver), interface, member, arguments)
            if pick == 1:
                return (tag, receiver, self.other_nominal(interface), member, arguments)
            if pick == 2:
                return (tag, receiver, interface, (member + 1) % 5, arguments)
            if pick == 3 and arguments:
                return (tag, receiver, interface, member, arguments[:-1] + (self.other(arguments[-1]),))
            return (tag, receiver, interface, member, arguments + (I8,) if self.chance(0.5) or not arguments else arguments[:-1])
        if tag == GENERIC:
            return (tag, term[1], (term[2] + 1) % 3) if self.chance(0.5) else (tag, (term[1] + 1) % 3, term[2])
        if tag == BUILTIN:
            return (tag, (term[1] + rng.randrange(1, 32)) % 32)
        if tag in (HOST, SELF_TYPE, INFERENCE):
            return (tag, (term[1] + 1) % 3)
        return rng.choice((I8, (TUPLE, ()), NEVER))

    def other_nominal(self, nominal):
        declaration, arguments, members = nominal
        pick = self.rng.randrange(6)
        if pick == 0:
            return ((declaration + 1) % 3, arguments, members)
        if pick == 1 and arguments:
            return (declaration, arguments[:-1] + (self.other(arguments[-1]),), members)
        if pick == 2:
            return (declaration, arguments + (I8,) if self.chance(0.5) or not arguments else arguments[1:], members)
        if pick == 3 and members:
            at = self.rng.randrange(len(members))
            new = self.other(members[at][1])
            return (declaration, arguments, members[:at] + ((members[at][0], new),) + members[at + 1:])
        if pick == 4 and members and members[-1][0] < 100:
            return (declaration, arguments, members[:-1] + ((members[-1][0] + 1, members[-1][1]),))
        if members and self.chance(0.5):
            return (declaration, arguments, members[:-1])
        if members and members[-1][0] > 100:
            return ((declaration + 1) % 3, arguments, members)
        return (declaration, arguments, members + ((members[-1][0] + 1 if members else 0, I8),))

    def with_holes(self, term):
        for _ in range(self.rng.choice((0, 1, 1, 2, 3))):
            term = self.somewhere(term, self.hole, 0.1)
        return term

    def two_copies(self, term):
        """A copy with a hole, and one with changes on the way to that hole."""
        parts = children(term)
        if not parts or self.chance(0.15):
            return self.hole(term), term
        at = self.rng.randrange(len(parts))
        left, right = self.two_copies(parts[at])
        left = with_children(term, parts[:at] + (left,) + parts[at + 1:])
        right = with_children(term, parts[:at] + (right,) + parts[at + 1:])
        return left, self.other(right) if self.chance(0.35) else right

    # Orders

    def order(self):
        getattr(self, "order_%d" % self.kind)()
        return self

    def put(self, *pieces):
        self.pieces += pieces

    def order_9(self):
        left = self.term()
        right = self.with_holes(left)
        left = self.with_holes(left)
        if self.chance(0.5):
            right = self.somewhere(right, self.other, self.rng.choice((0.2, 0.5)))
        self.put(left, right)

    def order_10(self):
        tag = self.rng.choice((REFERENCE, SET, SET, MAP))
        parts = (self.term(), self.term(2))[:2 if tag == MAP else 1]
        left = (tag, 1) + parts
        right = (tag, 0) + tuple(map(self.with_holes, parts))
        pick = self.rng.randrange(10)
        if pick == 0:
            left, right = right, left
        elif pick == 1:
            right = (tag, self.rng.randrange(2)) + right[2:]
        elif pick == 2:
            left = (tag, 0) + left[2:]
        elif pick in (3, 4):
            right = self.somewhere(right, self.other)
        elif pick == 5:
            left, right = self.around([left]), self.around([right])
        elif pick == 7:
            # A Set inside, whose access may weaken too.
            left = (tag, 1) + ((SET, 1, left[2]),) + left[3:]
            right = (tag, 0) + ((SET, self.rng.randrange(2), right[2]),) + right[3:]
        elif pick == 6:
            right = self.rng.choice((self.hole(right), (MAP, 0) + (right[2],) * 2, (SET, 0, right[2]), (REFERENCE, 0, right[2])))
        self.put(left, right)

    def order_11(self):
        self.without(UNKNOWN, ERROR)
        left, right = self.two_copies(self.term())
        if self.chance(0.4):
            left = self.somewhere(left, self.hole, 0.1)
        if self.chance(0.3):
            right = self.with_holes(right)
        self.put(left, right)

    def generic_leaves(self):
        self.leaves += [GENERIC] * 8 + [SELF_TYPE] * 5

    def substitution(self):
        rng = self.rng
        entries = [(self.number(), rng.randrange(3), self.term(rng.choice((1, 1, 2, 3)))) for _ in range(rng.randrange(6))]
        receivers = [(self.number(), self.term(rng.choice((1, 1, 2)))) for _ in range(rng.randrange(4))]
        self.put(len(entries))
        for entry in entries:
            self.put(*entry)
        self.put(len(receivers))
        for receiver in receivers:
            self.put(*receiver)

    def parameters(self, how_many=None):
        pairs = [(self.number(), self.rng.randrange(3)) for _ in range(self.rng.randrange(5) if how_many is None else how_many)]
        self.put(len(pairs))
        for pair in pairs:
            self.put(*pair)
        return pairs

    def order_12(self):
        self.generic_leaves()
        self.substitution()
        self.put(self.term())

    def order_13(self):
        self.generic_leaves()
        self.substitution()
        self.parameters()
        self.put(self.term())

    def order_14(self):
        self.generic_leaves()
        self.put(self.number(), self.term(self.rng.choice((1, 2, 4))), self.term())

    def order_15(self):
        pick = self.rng.randrange(6)
        if pick == 0:
            self.put((BUILTIN, self.rng.choice((10, 10, 11, 0, 7, 7, 8, 8, self.rng.randrange(8), self.rng.randrange(32)))))
            return
        if pick <= 3:
            self.without(UNKNOWN, ERROR, INFERENCE, GENERIC, SELF_TYPE)
        term = self.term()
        if pick == 2:
            term = self.somewhere(term, lambda part: self.rng.choice(HOLES + ((SELF_TYPE, 0), (GENERIC, 0, 0))), 0)
        self.put(term)

    def order_16(self):
        pairs = self.parameters()
        self.without(UNKNOWN, ERROR, INFERENCE, GENERIC, SELF_TYPE)
        self.pool = [(GENERIC,) + pair for pair in pairs]
        term = self.term()
        if self.chance(0.25):
            term = self.somewhere(term, lambda part: self.rng.choice(HOLES + ((SELF_TYPE, 0), (GENERIC, 0, 0))), 0)
        elif self.chance(0.2):
            term = self.somewhere(term, self.other)
        self.put(term)

    def order_17(self):
        rng = self.rng
        receiver = self.term(rng.choice((1, 1, 2, 3)))
        nominal = self.nominal([self.term(rng.choice((1, 1, 2, 3))) for _ in range(rng.randrange(5))])
        declaration, arguments, members = nominal
        asked = {member: term for member, term in members if self.chance(0.6)}
        for _ in range(rng.choice((0, 0, 1, 1, 2))):
            member = rng.randrange(6)
            interface = (declaration, arguments, tuple(pair for pair in members if self.chance(0.5)))
            if self.chance(0.15) and member < 5:
                # The interface asks for a reflexive projection in its turn.
                inner = (PROJECTION, receiver, (declaration, arguments, ()), 5, ())
                interface = interface[:2] + (tuple(pair for pair in interface[2] if pair[0] < 5) + ((5, inner),),)
            asked[member] = (PROJECTION, receiver, interface, member, ())
            if self.chance(0.35):
                asked[member] = self.other(asked[member])
        required = (declaration, arguments, tuple(sorted(asked.items())))
        if self.chance(0.15):
            required = self.other_nominal(required)
        self.put(Bare(nominal), Bare(required), receiver)

    def order_18(self):
        self.generic_leaves()
        how_many = self.rng.randrange(4)
        self.parameters(how_many)
        self.put(self.term())
        self.substitution()
        if self.chance(0.15):
            how_many = self.rng.randrange(5)
        self.put(how_many)
        for _ in range(how_many):
            self.put(self.term(self.rng.choice((1, 2, 3))))

    def projection(self, receivers):
        """A projection without one inside, mostly."""
        rng = self.rng
        interface = (rng.randrange(3), tuple(self.term(1) for _ in range(rng.choice((0, 0, 1)))),
                     tuple((member, self.term(1)) for member in range(3) if self.chance(0.15)))
        return (PROJECTION, rng.choice(receivers), interface, rng.randrange(3),
                tuple(self.term(1) for _ in range(rng.choice((0, 0, 0, 1, 2)))))

    def receivers(self):
        return [I8, self.term(1), self.term(2), (TRAIT, (self.number(), (), ((self.rng.randrange(3), self.term(1)),)))]

    def deep(self, term):
        """The term below so many others that the depth of 64 matters."""
        for _ in range(self.rng.randint(58, 67)):
            term = self.rng.choice(((ARRAY, term), (ITER, term), (TUPLE, (term,)), (TUPLE, (I8, term)), (SET, 1, term)))
        return term

    def wide(self, one):
        """A term that uses about all visits and children, and the value that stands for its projection one.

        The term is a Tuple of a projection with an own member and a tail. The
        receiver of that projection has copies of one.
        """
        rng = self.rng
        copies = rng.randint(12, 60)
        width = max(1, (8187 - rng.randint(0, 12)) // copies - 3 - rng.randint(0, 3))
        big = (PROJECTION, (TUPLE, (one,) * copies), (9, (), ((0, I8),)), 0, ())
        # The visits that are left for the tail.
        left = 8187 - copies * (3 + width)
        pick = rng.random()
        if pick < 0.4:
            # Children close to 8,192.
            tail = [THE_UNKNOWN] * (8192 - 3 - copies * (2 + width) + rng.choice((-1, 0, 1, 1, 2)))
        else:
            # The visits end inside a term with several kinds of children.
            tail = [THE_UNKNOWN] * (left - rng.randrange(7))
            tail.append(rng.choice((
                (rng.choice(NOMINALS), (0, (I8, I8), ((0, I8), (1, I8)))),
                (PROJECTION, I8, (7, (I8, I8), ((4, I8), (5, I8))), 0, (I8,) * rng.randrange(3)),
                (PROJECTION, I8, (7, (I8,), ((0, (TUPLE, (I8, I8))), (5, I8))), 0, ()),
                (FUNCTION, (I8, I8), I8), (MAP, 1, I8, I8), (TUPLE, (THE_UNKNOWN,) * rng.randrange(2 * copies)), self.term(4))))
            tail += [self.term(rng.choice((1, 1, 2))) for _ in range(rng.randrange(4))]
        return (TUPLE, (big,) + tuple(tail[:1000])), (TUPLE, (THE_UNKNOWN,) * width)

    def order_19(self):
        rng = self.rng
        self.without(GENERIC)
        receivers = self.receivers()
        owner = receivers[0]
        interface = (rng.randrange(3), tuple(self.term(1) for _ in range(rng.choice((0, 0, 1)))),
                     tuple((member, self.term(rng.choice((1, 1, 2)))) for member in range(3) if self.chance(0.5)))
        self.pool = [self.projection([owner, owner, owner] + receivers) for _ in range(3)]
        self.pool = [p if self.chance(0.3) else (PROJECTION, p[1], (interface[0],) + p[2][1:]) + p[3:] for p in self.pool]
        self.pool += [(PROJECTION, owner, interface, rng.randrange(3), ()), (PROJECTION, owner, (interface[0], (), ()), 0, ())]
        if self.chance(0.3) and interface[2]:
            # Outputs with projections inside, among them the projection itself.
            at = rng.randrange(len(interface[2]))
            inner = rng.choice(self.pool + [(PROJECTION, owner, (interface[0], (), ()), interface[2][at][0], ())])
            new = inner if self.chance(0.4) else (TUPLE, (inner, I8))
            interface = interface[:2] + (interface[2][:at] + ((interface[2][at][0], new),) + interface[2][at + 1:],)
        term = self.with_pool()
        if self.chance(0.08):
            term = self.deep(term if self.chance(0.8) else I8)
        elif self.chance(0.09):
            owner = I8
            term, value = self.wide((PROJECTION, I8, (1, (), ()), 0, ()))
            interface = (1, (), ((0, value),))
        self.put(term, Bare(interface), owner)

    def with_pool(self):
        self.pool_share = 0.5
        term = self.term()
        if self.chance(0.6):
            term = (TUPLE, (term, self.rng.choice(self.pool)))
        return term

    def order_20(self):
        rng = self.rng
        self.without(GENERIC)
        receivers = self.receivers()
        self.pool = [self.projection(receivers) for _ in range(4)]
        rules = []
        for _ in range(rng.randrange(6)):
            projection = rng.choice(self.pool)
            value = projection if self.chance(0.06) else self.term(rng.choice((1, 1, 2, 3)))
            if self.chance(0.35):
                projection = self.other(projection)
            rules.append((projection, value))
        term = self.with_pool()
        if self.chance(0.15):
            term = self.somewhere(term, self.other)
        if self.chance(0.08):
            term = self.deep(term if self.chance(0.8) else I8)
        elif self.chance(0.09):
            one = (PROJECTION, I8, (1, (), ()), 0, ())
            term, value = self.wide(one)
            rules.insert(0, (one, value))
        self.put(len(rules))
        for (_, receiver, interface, member, arguments), value in rules:
            self.put(Bare(interface), receiver, member, len(arguments), *arguments, value)
        self.put(term)

    # Bytes

    def data(self):
        out = bytearray([self.kind])
        for piece in self.pieces:
            if isinstance(piece, int):
                out += number_bytes(piece)
            elif isinstance(piece, Bare):
                out += nominal_written(piece.nominal)
            else:
                out += written(piece)
        return bytes(out)

    def terms_at(self):
        return [at for at, piece in enumerate(self.pieces) if isinstance(piece, tuple)]

    def nominals_at(self):
        return [at for at, piece in enumerate(self.pieces) if isinstance(piece, Bare)]

    def add_inside(self, change):
        """One of the terms of the order changed, or one more argument in a nominal."""
        nominals = self.nominals_at()
        if nominals and self.chance(0.4):
            at = self.rng.choice(nominals)
            declaration, arguments, members = self.pieces[at].nominal
            if members and self.chance(0.5):
                members = members[:-1] + ((members[-1][0], change(members[-1][1])),)
            else:
                arguments += (change(NEW),)
            self.pieces[at] = Bare((declaration, arguments, members))
        else:
            at = self.rng.choice(self.terms_at())
            self.pieces[at] = change(self.pieces[at])

    def make_levels(self, levels):
        """A term of the order gets exactly so many levels."""
        def change(term):
            for _ in range(levels - height(term)):
                parts = [term] if self.chance(0.8) else self.rng.choice(([term, I8], [I8, term]))
                term = self.around(parts)
            return term
        self.add_inside(change)

    def make_nodes(self, nodes):
        """The order gets exactly so many nodes."""
        before = MarkedFields(self.data())
        before.read()
        more = nodes - before.nodes_read

        def change(term):
            # A new argument of a nominal is one node more.
            pads = more - 1 - (term is NEW)
            return (TUPLE, (term,) + (THE_UNKNOWN,) * pads)
        if more >= 3:
            self.add_inside(change)


# Damage

def faulty_field(mark, rng):
    what, start, end, detail = mark
    if what == "tag":
        return bytes([rng.choice((20, 21, 255, rng.randrange(20, 256)))])
    if what == "sign":
        return bytes([rng.choice((2, 2, 3, 127, 128, 255))])
    if what == "code":
        return bytes([rng.choice((detail, detail, detail + 1, 128, 255))])
    if what == "member" and rng.random() < 0.8:
        return number_bytes(rng.choice((detail, detail, max(0, detail - 1), rng.randint(0, detail))))
    if rng.random() < 0.3:
        return number_bytes(min(Orders.MOST, max(0, detail + rng.choice((1, -1, 2, 127)))))
    return not_shortest(rng) if rng.random() < 0.5 else too_large(rng)


def damaged_fields(data, rng):
    fields = MarkedFields(data)
    try:
        fields.read()
    except Refused:
        pass
    marks = [mark for mark in fields.marks if mark[2] <= len(data)]
    if not marks:
        return data + b"\x00"
    rare = [mark for mark in marks if mark[0] in ("member", "code")]
    chosen = [rng.choice(rare if rare and rng.random() < 0.5 else marks) for _ in range(rng.choice((1, 1, 1, 2)))]
    data = bytearray(data)
    for mark in sorted(set(chosen), key=lambda mark: mark[1], reverse=True):
        data[mark[1]:mark[2]] = faulty_field(mark, rng)
    return bytes(data)


def with_falling_members(maker):
    """A nominal somewhere gets members that do not rise."""
    rng = maker.rng
    last = rng.choice((0, 1, 5, 127, 128, Orders.MOST - 1))
    nominal = (rng.randrange(3), (), ((last, maker.leaf()), (rng.choice((last, last, max(0, last - 1), 0)), maker.leaf())))
    nominals = maker.nominals_at()
    if nominals and rng.random() < 0.5:
        maker.pieces[rng.choice(nominals)] = Bare(nominal)
    elif rng.random() < 0.5:
        maker.add_inside(lambda term: (TUPLE, (term, (rng.choice(NOMINALS), nominal))))
    else:
        maker.add_inside(lambda term: (PROJECTION, term, nominal, 0, ()))


def random_order(rng):
    pick = rng.random()
    if pick < 0.005:
        return b""
    if pick < 0.02:
        kind = rng.choice((21, 23, 29, 127, 128, 137, 255, rng.randrange(21, 256)))
        return bytes([kind if kind not in SESSION else 23]) + rng.randbytes(rng.randrange(6))
    kind = rng.choice(KINDS + (19, 20))
    if pick < 0.03:
        # Small bytes at random: most of them are tags, codes and counts.
        return bytes([kind]) + bytes(rng.randrange(21) for _ in range(rng.randrange(12)))
    maker = Maker(rng, kind).order()
    pick = rng.random()
    if pick < 0.035:
        maker.make_levels(rng.choice((199, 200, 200, 201, 201, 202)))
        data = maker.data()
        if rng.random() < 0.2:
            # The deepest term is missing or has an unlisted tag.
            fields = MarkedFields(data)
            fields.LEVELS = 1000
            fields.read()
            return data[:fields.deepest[0]] + rng.choice((b"", b"\x14", b"\xff\x02"))
        return data
    if pick < 0.06:
        maker.make_nodes(rng.choice((2047, 2048, 2048, 2049, 2049, 2049, 2050)))
        data = maker.data()
        return data if rng.random() < 0.8 else rng.choice((data + b"\x02", data[:-1]))
    if pick < 0.08:
        with_falling_members(maker)
        return maker.data()
    data = maker.data()
    if pick < 0.65:
        return data
    if pick < 0.87:
        data = damaged_fields(data, rng)
    if pick > 0.83:
        kind_byte = data[:1]
        for _ in range(rng.choice((1, 1, 1, 2))):
            data = damaged_bytes(data, rng)
        if data and data[0] in SESSION:
            data = kind_byte + data[1:]
    return data


def random_orders(how_many, seed):
    rng = random.Random(seed)
    for _ in range(how_many):
        yield random_order(rng)
