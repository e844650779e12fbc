#!/usr/bin/env python3
"""Orders 9 to 20, written from document 01 and the functions it names.

answer(order) is the answer to the bytes of one order, without its length:
the outcome byte and, on outcome 0, the value. answers(data) is the answered
orders of an input, which is a run of orders with their lengths.

  python3 tests/orders_reference.py < INPUT > ANSWERS

A term is a tuple that starts with its tag. After it come the fields in the
order of the byte form, without counts: a number, a term, a nominal, or a
tuple of terms. A nominal is (declaration, arguments, members), and members
is a tuple of pairs (member, term).

Only the kinds 9 to 20 are listed here. An order of another kind gives
refusal 2.

The operations are methods, so that orders_slips.py can replace one. The
bytes are read by terms_reference.py, which says what the references do not
share.
"""

import sys

from terms_reference import NOMINAL, Reader, Refused, answered, framed, number_bytes, split

# A level takes up to six Python calls. A term that is read has at most 200
# levels, and one that is answered at most 400.
sys.setrecursionlimit(20000)

REFERENCE, INFERENCE, UNKNOWN, ERROR, BUILTIN = 0, 1, 2, 3, 4
TUPLE, FUNCTION, ITER, RANGE, ARRAY, MAP, SET = 5, 6, 7, 8, 9, 10, 11
NATIVE_OBJECT, STRUCT, ENUM, TRAIT, HOST, GENERIC, PROJECTION, SELF_TYPE = 12, 13, 14, 15, 16, 17, 18, 19

NOMINALS = (NATIVE_OBJECT, STRUCT, ENUM, TRAIT)
RECOVERY = (UNKNOWN, ERROR)
OPEN = (INFERENCE, UNKNOWN, ERROR)
# Reference access: 0 Shared, 1 Mutable. Set and Map access: 0 ReadOnly, 1 Mutable.
WEAK, MUTABLE = 0, 1
NEVER = 10
INTEGERS = range(8)

THE_UNKNOWN = (UNKNOWN,)
THE_ERROR = (ERROR,)

# The fields of each order, the operation, and the form of its value.
ORDERS = {
    9: (("one_term", "one_term"), "conflicts", "truth"),
    10: (("one_term", "one_term"), "weakens", "truth"),
    11: (("one_term", "one_term"), "recovered", "term"),
    12: (("substitution", "one_term"), "instantiated", "term"),
    13: (("substitution", "parameters", "one_term"), "argument_context", "term"),
    14: (("one_number", "one_term", "one_term"), "with_self", "term"),
    15: (("one_term",), "questions", "truths"),
    16: (("parameters", "one_term"), "resolved_in", "truth"),
    17: (("nominal", "nominal", "one_term"), "both_satisfied", "truths"),
    18: (("parameters", "one_term", "substitution", "terms"), "family_applied", "maybe_term"),
    19: (("one_term", "nominal", "one_term"), "with_associated_types", "term"),
    20: (("rules", "one_term"), "normalised", "term"),
}


# Writing

def nominal_written(nominal):
    declaration, arguments, members = nominal
    out = number_bytes(declaration) + terms_written(arguments) + number_bytes(len(members))
    return out + b"".join(number_bytes(member) + written(term) for member, term in members)


def terms_written(terms):
    return number_bytes(len(terms)) + b"".join(map(written, terms))


def written(term):
    tag, fields = term[0], term[1:]
    head = bytes([tag])
    if tag in OPEN[1:]:
        return head
    if tag in (INFERENCE, BUILTIN, HOST, GENERIC, SELF_TYPE):
        return head + b"".join(map(number_bytes, fields))
    if tag in (ITER, ARRAY):
        return head + written(fields[0])
    if tag in (REFERENCE, RANGE, SET):
        return head + bytes([fields[0]]) + written(fields[1])
    if tag == MAP:
        return head + bytes([fields[0]]) + written(fields[1]) + written(fields[2])
    if tag == TUPLE:
        return head + terms_written(fields[0])
    if tag == FUNCTION:
        return head + terms_written(fields[0]) + written(fields[1])
    if tag in NOMINALS:
        return head + nominal_written(fields[0])
    receiver, interface, member, arguments = fields
    return head + written(receiver) + nominal_written(interface) + number_bytes(member) + terms_written(arguments)


# Parts of terms

def children(term):
    """The direct children, in the order of map_children."""
    tag = term[0]
    if tag in (ITER, ARRAY):
        return (term[1],)
    if tag in (REFERENCE, RANGE, SET):
        return (term[2],)
    if tag == MAP:
        return term[2:]
    if tag == TUPLE:
        return term[1]
    if tag == FUNCTION:
        return term[1] + (term[2],)
    if tag in NOMINALS:
        return nominal_children(term[1])
    if tag == PROJECTION:
        _, receiver, interface, _, arguments = term
        return arguments + (receiver,) + nominal_children(interface)
    return ()


def nominal_children(nominal):
    """Members before arguments."""
    _, arguments, members = nominal
    return tuple(term for _, term in members) + arguments


def with_children(term, new):
    """The term with other children, in the order of children."""
    tag, new = term[0], tuple(new)
    if tag in (ITER, ARRAY):
        return (tag,) + new
    if tag in (REFERENCE, RANGE, SET, MAP):
        return term[:2] + new
    if tag == TUPLE:
        return (tag, new)
    if tag == FUNCTION:
        return (tag, new[:-1], new[-1])
    if tag in NOMINALS:
        return (tag, nominal_with_children(term[1], new))
    if tag == PROJECTION:
        _, _, interface, member, arguments = term
        count = len(arguments)
        return (tag, new[count], nominal_with_children(interface, new[count + 1:]), member, new[:count])
    return term


def nominal_with_children(nominal, new):
    declaration, arguments, members = nominal
    count = len(members)
    return (declaration, new[count:], tuple((member, term) for (member, _), term in zip(members, new[:count])))


def member_of(nominal, wanted):
    for member, term in nominal[2]:
        if member == wanted:
            return term
    return None


def member_names(nominal):
    return [member for member, _ in nominal[2]]


def collection_access(term):
    return term[1] if term[0] in (SET, MAP) else None


class Orders(Reader):
    """Reads one order and carries it out."""

    OUTPUT = 32768
    ORDERS = ORDERS
    DEPTH = 64
    VISITS = 8192
    CHILDREN = 8192

    def __init__(self, data):
        super().__init__(data)
        self.nodes_read = 0
        self.visits_left = self.VISITS
        self.children_met = 0

    # Reading. Bytes, numbers, levels and the order of faults are those of
    # Reader. Each field gives a list of one part.

    def inference_id(self, level):
        return [self.number()]

    def terms(self, level):
        return [tuple(super().terms(level)[1:])]

    def members(self, level):
        parts = super().members(level)[1:]
        return [tuple(zip(parts[::2], parts[1::2]))]

    def nominal(self, level):
        return [tuple(self.row(NOMINAL, level))]

    def term(self, level):
        tag, parts = super().term(level)
        self.nodes_read += 1
        return (tag,) + tuple(parts)

    def rows(self, names, level):
        return [tuple(self.row(names, level)) for _ in range(self.number())]

    def substitution(self, level):
        """A later entry replaces an earlier one."""
        parameters = {(owner, position): term
                      for owner, position, term in self.rows(("one_number", "one_number", "one_term"), level)}
        receivers = dict(self.rows(("one_number", "one_term"), level))
        return [(parameters, receivers)]

    def parameters(self, level):
        return [self.rows(("one_number", "one_number"), level)]

    def rules(self, level):
        return [self.rows(("nominal", "one_term", "one_number", "terms", "one_term"), level)]

    # One order

    def order(self):
        """The bytes that follow outcome 0."""
        kind = self.byte()
        if kind not in self.ORDERS:
            raise Refused(2)
        names, operation, form = self.ORDERS[kind]
        fields = self.row(names, 1)
        self.used_up()
        if self.nodes_read > self.NODES:
            raise Refused(7)
        return self.value_bytes(form, getattr(self, operation)(*fields))

    def value_bytes(self, form, value):
        if form == "truth":
            return bytes([value])
        if form == "truths":
            return bytes(value)
        if form == "maybe_term":
            return b"\x00" if value is None else b"\x01" + written(value)
        return written(value)

    # Orders 9 and 10

    def conflicts(self, left, right):
        if left[0] in OPEN or right[0] in OPEN:
            return False
        if self.accesses_conflict(left, right):
            return True
        if left[0] != right[0]:
            return True
        tag = left[0]
        if tag in (REFERENCE, RANGE):
            return left[1] != right[1] or self.conflicts(left[2], right[2])
        if tag in (ITER, ARRAY, SET, MAP):
            return self.any_conflicts(children(left), children(right))
        if tag == TUPLE:
            return len(left[1]) != len(right[1]) or self.any_conflicts(left[1], right[1])
        if tag == FUNCTION:
            return len(left[1]) != len(right[1]) or self.any_conflicts(children(left), children(right))
        if tag in NOMINALS:
            return self.nominals_conflict(left[1], right[1])
        return self.others_conflict(left, right)

    def accesses_conflict(self, left, right):
        accesses = collection_access(left), collection_access(right)
        return None not in accesses and accesses[0] != accesses[1]

    def any_conflicts(self, left, right):
        return any(self.conflicts(a, b) for a, b in zip(left, right))

    def nominals_conflict(self, left, right):
        return (left[0] != right[0] or len(left[1]) != len(right[1]) or member_names(left) != member_names(right)
                or self.any_conflicts(nominal_children(left), nominal_children(right)))

    def others_conflict(self, left, right):
        """Builtin, Host, Generic, SelfType, and projections as wholes."""
        return left != right

    def weakens(self, term, target):
        if term[0] == REFERENCE and target[0] == REFERENCE:
            if term[1] != MUTABLE or target[1] != WEAK:
                return False
        elif collection_access(term) != MUTABLE or collection_access(target) != WEAK:
            return False
        return not self.conflicts((term[0], WEAK) + term[2:], target)

    # Order 11

    def recovered(self, left, right):
        if right[0] in RECOVERY:
            return left
        if left[0] in RECOVERY:
            return right
        if left[0] != right[0]:
            return left
        tag = left[0]
        if tag in (REFERENCE, RANGE):
            together = left[1] == right[1]
        elif tag in (ITER, ARRAY, SET, MAP):
            together = True
        elif tag in (TUPLE, FUNCTION):
            together = len(left[1]) == len(right[1])
        elif tag in NOMINALS:
            return (tag, self.nominal_recovered(left[1], right[1]))
        else:
            together = False
        if not together:
            return left
        return with_children(left, map(self.recovered, children(left), children(right)))

    def nominal_recovered(self, left, right):
        declaration, arguments, members = left
        if declaration != right[0] or len(arguments) != len(right[1]):
            return left
        arguments = tuple(map(self.recovered, arguments, right[1]))
        if member_names(left) == member_names(right):
            members = tuple((member, self.recovered(term, other))
                            for (member, term), (_, other) in zip(members, right[2]))
        return (declaration, arguments, members)

    # Orders 12 to 14 and 18

    def substituted(self, term, replacement):
        """The term with replaced parts. What is put in is not looked at again."""
        found = replacement(term)
        if found is not None:
            return found
        return with_children(term, [self.substituted(child, replacement) for child in children(term)])

    def instantiated(self, substitution, term):
        parameters, receivers = substitution

        def replacement(part):
            if part[0] == GENERIC:
                return parameters.get(part[1:])
            if part[0] == SELF_TYPE:
                return receivers.get(part[1])
            return None
        return self.substituted(term, replacement)

    def argument_context(self, substitution, parameters, term):
        def replacement(part):
            if part[0] != GENERIC:
                return None
            if part[1:] in substitution[0]:
                return substitution[0][part[1:]]
            return THE_UNKNOWN if part[1:] in parameters else None
        return self.substituted(term, replacement)

    def with_self(self, owner, new, term):
        return self.substituted(term, lambda part: new if part == (SELF_TYPE, owner) else None)

    def family_applied(self, parameters, value, substitution, arguments):
        if len(parameters) != len(arguments):
            return None
        joined = dict(substitution[0])
        joined.update(zip(parameters, arguments))
        return self.instantiated((joined, substitution[1]), value)

    # Orders 15 and 16

    def questions(self, term):
        return [self.is_never(term), self.is_integer(term), self.is_concrete(term), self.is_unresolved(term),
                self.contains_unknown(term), self.contains_self_type(term), self.contains_projection(term)]

    def is_never(self, term):
        return term == (BUILTIN, NEVER)

    def is_integer(self, term):
        return term[0] == BUILTIN and term[1] in INTEGERS

    def is_concrete(self, term):
        return self.resolved_in([], term)

    def is_unresolved(self, term):
        return term[0] in OPEN or any(map(self.is_unresolved, children(term)))

    def contains_unknown(self, term):
        """Error does not count, and a projection is not entered."""
        if term[0] in (INFERENCE, UNKNOWN):
            return True
        return term[0] != PROJECTION and any(map(self.contains_unknown, children(term)))

    def contains_self_type(self, term):
        return term[0] == SELF_TYPE or any(map(self.contains_self_type, children(term)))

    def contains_projection(self, term):
        return term[0] == PROJECTION or any(map(self.contains_projection, children(term)))

    def resolved_in(self, parameters, term):
        tag = term[0]
        if tag in OPEN or tag == SELF_TYPE:
            return False
        if tag == GENERIC:
            return term[1:] in parameters
        if tag == PROJECTION and not parameters:
            return False
        return all(self.resolved_in(parameters, child) for child in children(term))

    # Order 17

    def both_satisfied(self, nominal, required, receiver):
        return [self.satisfies(nominal, required), self.satisfies_for(nominal, required, receiver)]

    def satisfies(self, nominal, required):
        return nominal[:2] == required[:2] and all(member_of(nominal, member) == term for member, term in required[2])

    def satisfies_for(self, nominal, required, receiver):
        return nominal[:2] == required[:2] and all(
            member_of(nominal, member) == term or self.is_reflexive(nominal, receiver, member, term)
            for member, term in required[2])

    def is_reflexive(self, nominal, receiver, member, term):
        if term[0] != PROJECTION:
            return False
        _, projected, interface, projected_member, arguments = term
        return (projected == receiver and projected_member == member and arguments == ()
                and self.satisfies(nominal, interface))

    # Orders 19 and 20

    def with_associated_types(self, term, interface, owner):
        def lookup(projection):
            _, receiver, projected, member, arguments = projection
            if arguments or projected[0] != interface[0] or receiver != owner:
                return None
            output = member_of(interface, member)
            if output is not None:
                return output if output != projection else None
            return (PROJECTION, receiver, interface, member, ()) if projected != interface else None
        return self.walked_from(term, lookup)

    def normalised(self, rules, term):
        def lookup(projection):
            _, receiver, interface, member, arguments = projection
            for rule in rules:
                if rule[:4] == (interface, receiver, member, arguments):
                    return rule[4]
            return None
        return self.walked_from(term, lookup)

    def walked_from(self, term, lookup):
        if not self.contains_projection(term):
            return term
        return self.walked(term, lookup, 0)

    def walked(self, term, lookup, depth):
        if depth > self.DEPTH or self.visits_left == 0:
            return THE_ERROR
        self.visits_left -= 1
        parts = children(term)
        self.children_met += len(parts)
        if self.children_met > self.CHILDREN:
            raise Refused(9)
        term = with_children(term, [self.walked(part, lookup, depth + 1) for part in parts])
        if term[0] != PROJECTION:
            return term
        value = self.own_member(term)
        if value is None:
            value = lookup(term)
        if value is None:
            return term
        if value == term:
            return THE_ERROR
        return self.walked(value, lookup, depth + 1)

    def own_member(self, projection):
        """The interface's own member, then that of a Trait receiver."""
        _, receiver, interface, member, arguments = projection
        if arguments:
            return None
        value = member_of(interface, member)
        if value is None and receiver[0] == TRAIT:
            value = member_of(receiver[1], member)
        return value


# Orders and inputs

def answer(order, how=Orders):
    try:
        return b"\x00" + how(order).order()
    except Refused as refusal:
        return bytes(refusal.args)


def answers(data, how=Orders, room=None):
    """The answered orders of an input: pairs (order, answer with its length)."""
    room = how.OUTPUT if room is None else room
    return answered(split(data[:how.INPUT], how)[0], lambda order: framed(answer(order, how)), room)


def run(data, how=Orders, room=None):
    return b"".join(reply for _, reply in answers(data, how, room))


if __name__ == "__main__":
    sys.stdout.buffer.write(run(sys.stdin.buffer.read()))
