#!/usr/bin/env python3
"""Whole sheets, written from documents 01 and 02 and the Rust's Solver.

run(sheet) is what a run gives: the reason, the number of orders answered and
the answers. program(data) is what the sheet program writes.

  python3 tests/sheet_reference.py < SHEET > ANSWERS
  python3 tests/sheet_reference.py --reason < SHEET     the reason and the counts, not the answers

Orders 9 to 20 are those of orders_reference.py. The solver's orders are
here. A term of a session is a Node, and equal terms are the same Node: terms
that resolving makes are shared, however large they are as trees. So equality
is one comparison, occurrence and recovery are marks of a Node, and a size is
known before a byte is written. constrain remembers, until the next binding,
what a pair took that bound nothing. With these, chains of doubled terms take
polynomial time. Orders 9 to 20 work on trees: an order 12 with an answer of
some million nodes takes seconds here.

The operations are methods, so that sheet_slips.py can replace one. The
bytes are read by terms_reference.py, which says what the references do not
share.
"""

import sys
from collections import namedtuple

import orders_reference
from orders_reference import (
    ARRAY, BUILTIN, ERROR, FUNCTION, INFERENCE, ITER, MAP, NOMINALS, RANGE, REFERENCE, SET, TUPLE, UNKNOWN)
from terms_reference import Reader, Refused, number_bytes

F32, F64, NEVER = 8, 9, 10
INTEGERS = frozenset(range(8))
FLOATS = frozenset((F32, F64))
# The least and the largest value of each integer type, by code.
HELD = {code: (-2 ** (bits - 1), 2 ** (bits - 1) - 1) if code < 4 else (0, 2 ** bits - 1)
        for code, bits in zip(range(8), (8, 16, 32, 64) * 2)}
# Where a range took part, a default takes the first of these that is admitted, if the fallback is not.
PREFERENCE = (2, 3, 6, 7, 0, 4, 1, 5)
INCOMPATIBLE, COMPATIBLE, CANCELLED = 0, 1, 2
# The kinds of terms that constrain enters.
ENTERED = (REFERENCE, TUPLE, FUNCTION, ITER, RANGE, ARRAY, MAP, SET) + NOMINALS

Run = namedtuple("Run", "reason orders output")

# The fields of the solver's orders, and the operation.
ORDERS = {
    0: (("one_number", "one_number"), "variable_order"),
    1: (("one_number", "code"), "number_order"),
    2: (("one_number",), "hole_order"),
    3: (("one_term",), "defer_order"),
    4: (("one_number", "one_term", "one_term"), "constrain_order"),
    5: (("one_term",), "resolve_order"),
    6: ((), "numeric_default_order"),
    7: ((), "never_default_order"),
    8: ((), "revision_order"),
    21: (("one_number", "code", "bound", "bound"), "range_order"),
    22: (("one_number", "one_term", "one_term"), "strict_order"),
}
# The orders that pose a pair.
PAIRS = (4, 22)


class Node:
    """A term of a session. parts are the numbers and the Nodes after the tag, in the order of the byte form."""

    __slots__ = ("tag", "parts", "below", "variables", "recovery", "size")

    def __init__(self, tag, parts):
        self.tag = tag
        self.parts = parts
        self.below = [part for part in parts if isinstance(part, Node)]
        # Bit n is set where Inference n is in the term.
        self.variables = 1 << parts[0] if tag == INFERENCE else 0
        self.recovery = tag in (UNKNOWN, ERROR)
        self.size = 1
        for part in parts:
            if isinstance(part, Node):
                self.variables |= part.variables
                self.recovery |= part.recovery
                self.size += part.size
            else:
                self.size += len(number_bytes(part))

    def children(self):
        """In the order of map_children: of a nominal, members before arguments."""
        if self.tag in NOMINALS:
            arguments = self.parts[1]
            return self.below[arguments:] + self.below[:arguments]
        return self.below

    def shape(self):
        """Tag and numbers, with gaps for the terms."""
        return (self.tag,) + tuple(None if isinstance(part, Node) else part for part in self.parts)

    def written(self):
        out, left = bytearray(), [self]
        while left:
            part = left.pop()
            if isinstance(part, Node):
                out.append(part.tag)
                left.extend(reversed(part.parts))
            else:
                out += number_bytes(part)
        return bytes(out)


class Fields(Reader):
    """The fields of one of the solver's orders. Reader gives refusal 6 for ids from issued on."""

    def __init__(self, data, issued):
        super().__init__(data)
        self.issued = issued
        self.nodes_read = 0

    def bound(self, level):
        """Any byte for the sign, and the halves of the size, the high one first."""
        return [self.byte(), self.number(), self.number()]

    def term(self, level):
        tree = super().term(level)
        self.nodes_read += 1
        return tree


class Sheet:
    """A session, and the run of orders that changes it."""

    NODES = 2048
    VARIABLES = 512
    MOST_BYTES = 16777216
    LEAST_WORDS = 16384
    INPUT = OUTPUT = 32768
    FIELDS = Fields
    PLAIN = orders_reference.Orders
    KINDS = tuple(range(23))
    HELD = HELD
    PREFERENCE = PREFERENCE

    def __init__(self):
        self.nodes = {}
        self.places = {}
        self.bindings = []
        # The fallbacks of the number variables, and the types that they admit where a range took part.
        self.numeric = {}
        self.ranges = {}
        self.diverging = set()
        self.revision = 0
        self.kept = 0
        # Whether Set and Map access counts in the pair at hand.
        self.strict = False
        # The bound variables as bits, and the Nodes resolved since the last binding.
        self.bound = 0
        self.resolved = {}

    # Terms

    def node(self, tag, *parts):
        found = self.nodes.get((tag, parts))
        if found is None:
            found = self.nodes[(tag, parts)] = Node(tag, parts)
        return found

    def inference(self, variable):
        return self.node(INFERENCE, variable)

    def builtin(self, code):
        return self.node(BUILTIN, code)

    def shared(self, tree):
        """The Node of a tree that was read."""
        tag, parts = tree
        return self.node(tag, *(part if isinstance(part, int) else self.shared(part) for part in parts))

    # Variables

    def issued(self):
        return len(self.bindings)

    def placed(self, place):
        """The variable of a place; a new one where the place has none."""
        if place not in self.places:
            if self.issued() >= self.VARIABLES:
                raise Refused(8)
            self.places[place] = self.issued()
            self.bindings.append(None)
        return self.places[place]

    def expression_place(self, site, slot):
        return "expression", site, slot

    def hole_place(self, site):
        return "hole", site

    def number_place(self, site):
        return self.expression_place(site, 1)

    def is_bound(self, variable):
        return self.bindings[variable] is not None

    def bind(self, variable, term):
        self.bindings[variable] = term
        self.bound |= 1 << variable
        self.revision += 1
        self.resolved = {}

    def resolve(self, term):
        """The term with every bound variable replaced, as long as there is one."""
        left = [term]
        while left:
            top = left[-1]
            if top in self.resolved:
                left.pop()
                continue
            if not top.variables & self.bound:
                self.resolved[top] = top
                left.pop()
                continue
            needed = [self.bindings[top.parts[0]]] if top.tag == INFERENCE else top.below
            missing = [part for part in needed if part not in self.resolved]
            if missing:
                left.extend(missing)
                continue
            left.pop()
            if top.tag == INFERENCE:
                self.resolved[top] = self.resolved[needed[0]]
            else:
                parts = [self.resolved[part] if isinstance(part, Node) else part for part in top.parts]
                self.resolved[top] = self.node(top.tag, *parts)
        return self.resolved[term]

    def free_end(self, variable):
        """The free variable where a variable's chain ends, or None."""
        end = self.resolve(self.inference(variable))
        return end.parts[0] if end.tag == INFERENCE else None

    # Constrain

    def constrain(self, checks, left, right):
        """The pairs are met as the Rust meets them: the one pushed last first.

        Until the next binding, a pair that was met before takes as many
        checks as it took then, and has as many faults.
        """
        spent = faults = 0
        known = {}
        pending = [(left, right)]
        while pending:
            entry = pending.pop()
            if len(entry) == 5:
                # The end of a pair that was entered.
                left, right, revision, spent_before, faults_before = entry
                if revision == self.revision:
                    known[left, right] = spent - spent_before, faults - faults_before
                continue
            if spent == checks:
                return self.cancelled(faults)
            left, right = map(self.resolve, entry)
            if (left, right) in known:
                more, more_faults = known[left, right]
                if spent + more > checks:
                    return self.cancelled(faults)
                spent += more
                faults += more_faults
                continue
            before = self.revision
            parts = self.met(left, right)
            if self.revision != before:
                known = {}
            if parts:
                pending.append((left, right, self.revision, spent, faults))
                pending += self.pushed(parts)
            elif parts is None:
                faults += 1
            spent += 1
        return INCOMPATIBLE if faults else COMPATIBLE

    def cancelled(self, faults):
        return CANCELLED

    def pushed(self, parts):
        return parts

    def met(self, left, right):
        """One resolved pair: the pairs of parts to meet, () where there are none, None where it is incompatible."""
        if left is right:
            return ()
        if left.tag in (UNKNOWN, ERROR) or right.tag in (UNKNOWN, ERROR):
            return ()
        if left.tag == INFERENCE:
            return self.variable_met(left.parts[0], right)
        if right.tag == INFERENCE:
            return self.variable_met(right.parts[0], left)
        if not self.same_shape(left, right):
            return None
        return list(zip(left.children(), right.children()))

    def same_shape(self, left, right):
        if left.tag not in ENTERED:
            return False
        first, second = left.shape(), right.shape()
        if left.tag in (SET, MAP) and not self.strict:
            # Access is not looked at.
            first, second = first[:1] + first[2:], second[:1] + second[2:]
        return first == second

    def variable_met(self, variable, term):
        """A free variable meets a term. Recovery goes before family, and family before occurrence."""
        if self.recovers(term):
            return ()
        if variable in self.numeric:
            if not self.admits(variable, term):
                return None
            if term.tag == INFERENCE:
                self.join(variable, term.parts[0])
        if self.occurs(variable, term):
            return None
        self.bind(variable, term)
        return ()

    def recovers(self, term):
        return term.recovery

    def occurs(self, variable, term):
        return bool(term.variables >> variable & 1)

    def family(self, fallback):
        return FLOATS if fallback == F64 else INTEGERS

    def types(self, variable):
        """The types that a number variable admits."""
        return self.ranges[variable] if variable in self.ranges else self.family(self.numeric[variable])

    def admits(self, variable, term):
        if term.tag == INFERENCE:
            other = term.parts[0]
            return other not in self.numeric or bool(self.types(variable) & self.types(other))
        return term.tag == BUILTIN and term.parts[0] in self.types(variable)

    def join(self, variable, other):
        """The fallback of the variable that is bound goes over to the other. Where one of them has a range, the types that both admit are left."""
        self.join_ranges(variable, other)
        self.numeric[other] = self.numeric[variable]

    def join_ranges(self, variable, other):
        if variable in self.ranges or other in self.ranges:
            self.ranges[other] = self.types(variable) & (self.types(other) if other in self.numeric else self.types(variable))

    # The solver's orders. Each gives a Node or bytes.

    def variable_order(self, site, slot):
        return self.inference(self.placed(self.expression_place(site, slot)))

    def number_order(self, site, fallback):
        variable = self.placed(self.number_place(site))
        self.request(variable, fallback)
        return self.resolve(self.inference(variable))

    def request(self, variable, fallback):
        self.numeric[variable] = fallback
        self.ranges.pop(variable, None)

    def range_order(self, site, fallback, *bounds):
        variable = self.placed(self.number_place(site))
        self.request_range(variable, fallback, self.held(*bounds))
        return self.resolve(self.inference(variable))

    def request_range(self, variable, fallback, types):
        self.numeric[variable] = fallback
        self.ranges[variable] = types

    def size(self, high, low):
        return high * 4294967296 + low

    def value_of(self, sign, high, low):
        return -self.size(high, low) if sign else self.size(high, low)

    def held(self, *bounds):
        """The integer types that hold both bounds."""
        low, high = self.value_of(*bounds[:3]), self.value_of(*bounds[3:])
        return frozenset(code for code, (least, most) in self.HELD.items() if least <= low and high <= most)

    def faulty_bounds(self, *bounds):
        return max(bounds[0], bounds[3]) > 1 or self.value_of(*bounds[:3]) > self.value_of(*bounds[3:]) or not self.held(*bounds)

    def hole_order(self, site):
        return self.resolve(self.inference(self.placed(self.hole_place(site))))

    def defer_order(self, term):
        end = self.resolve(self.shared(term))
        if end.tag == INFERENCE:
            self.defer(end.parts[0])
        return b""

    def defer(self, variable):
        self.diverging.add(variable)

    def constrain_order(self, checks, left, right):
        return self.pair_order(False, checks, left, right)

    def strict_order(self, checks, left, right):
        return self.pair_order(True, checks, left, right)

    def pair_order(self, strict, checks, left, right):
        self.strict = strict
        return bytes([self.constrain(checks, self.shared(left), self.shared(right))])

    def resolve_order(self, term):
        return self.resolve(self.shared(term))

    def numeric_default_order(self):
        before = self.revision
        for variable, fallback in self.defaults_in_turn():
            end = self.free_end(variable)
            if end is not None:
                self.bind(end, self.builtin(self.taken(variable, fallback, end)))
        return bytes([self.revision != before])

    def taken(self, variable, fallback, end):
        """The code of a default. Where a range took part, in the own request or in that of the end, it looks at what is admitted."""
        if variable not in self.ranges and end not in self.ranges:
            return fallback
        admitted = self.admitted(variable, end)
        return next((code for code in (fallback,) + self.PREFERENCE if code in admitted), fallback)

    def admitted(self, variable, end):
        """What the end's request admits, and the own one where the end has none."""
        return self.types(end if end in self.numeric else variable)

    def defaults_in_turn(self):
        return sorted(self.numeric.items())

    def never_default_order(self):
        before = self.revision
        for variable in self.deferred_in_turn():
            end = self.free_end(variable)
            if end is not None:
                self.bind(end, self.builtin(NEVER))
        return bytes([self.revision != before])

    def deferred_in_turn(self):
        return sorted(self.diverging)

    def revision_order(self):
        return number_bytes(self.revision)

    # One order

    def value(self, order):
        """What follows outcome 0: bytes or a Node."""
        if not order:
            raise Refused(1)
        kind = order[0]
        if kind not in self.KINDS:
            raise Refused(2)
        return self.solver_value(order) if kind in ORDERS else self.plain_value(order)

    def solver_value(self, order):
        names, operation = ORDERS[order[0]]
        fields = self.FIELDS(order[1:], self.issued())
        parts = fields.row(names, 1)
        fields.used_up()
        self.refuse_bounds(order[0], parts)
        if self.kept + fields.nodes_read > self.NODES:
            raise Refused(7)
        before = self.revision
        value = getattr(self, operation)(*parts)
        self.keep(order[0], fields.nodes_read, value, self.revision != before)
        return value

    def refuse_bounds(self, kind, parts):
        if kind == 21 and self.faulty_bounds(*parts[2:]):
            raise Refused(13)

    def keep(self, kind, nodes, value, bound):
        """A pair keeps all its nodes where it bound a variable, and none where it bound nothing, whatever it answers."""
        if kind in PAIRS and bound:
            self.kept += nodes

    def plain_value(self, order):
        how = self.PLAIN(order)
        how.NODES = self.NODES - self.kept
        return how.order()

    # The run

    def step(self, order, room):
        """The answer with its length, or None if it takes more than room. The session is then of no use."""
        try:
            value = self.value(order)
        except Refused as refusal:
            return self.fitting(bytes(refusal.args), b"", room)
        return self.fitting(b"\x00", value, room)

    def fitting(self, outcome, value, room):
        size = len(outcome) + (value.size if isinstance(value, Node) else len(value))
        head = number_bytes(size)
        if len(head) + size > room:
            return None
        return head + outcome + (value.written() if isinstance(value, Node) else value)

    def run(self, sheet, room, words=None):
        """The orders of a sheet, with room for so many bytes of answers and so many words in the smallest area."""
        words = self.LEAST_WORDS if words is None else words
        if max(len(sheet), room) > self.MOST_BYTES or words < self.LEAST_WORDS:
            return Run(12, 0, b"")
        lengths, out, orders = Reader(sheet), bytearray(), 0
        while lengths.at < len(sheet):
            try:
                length = lengths.number()
            except Refused:
                return Run(10, orders, bytes(out))
            if length > len(sheet) - lengths.at:
                return Run(10, orders, bytes(out))
            order = sheet[lengths.at:lengths.at + length]
            lengths.at += length
            answer = self.step(order, room - len(out))
            if answer is None:
                return Run(11, orders, bytes(out))
            out += answer
            orders += 1
        return Run(0, orders, bytes(out))


def run(sheet, room=Sheet.OUTPUT, how=Sheet, words=None):
    return how().run(sheet, room, words)


def program(data, how=Sheet):
    """What the sheet program writes: later bytes are not read."""
    return run(data[:how.INPUT], how.OUTPUT, how).output


if __name__ == "__main__":
    found = run(sys.stdin.buffer.read()[:Sheet.INPUT])
    if sys.argv[1:] == ["--reason"]:
        print("reason %d, %d orders, %d bytes" % (found.reason, found.orders, len(found.output)))
    else:
        sys.stdout.buffer.write(found.output)
