"""From bytes to text: orders, terms and answers.

order_text(order) is the line of an order, answer_text(kind, answer) what
stands behind `=>`. Both take any bytes. What cannot be read is shown as
bytes.

The references of tests read the same bytes. Nothing is shared with them:
tests/text_tests.py compares the two.
"""

from sheet_words import ANSWERS, BUILTINS, CODES, LEVELS, MOST, ORDERS, OWNERS, REFUSALS, Names

NO_NAMES = Names()

# By tag: the method of Bytes that reads what follows it.
TAGS = (
    "reference", "inference", "unknown", "error", "builtin_term", "tuple", "function", "iter", "range", "array", "map", "set",
    "native", "struct", "enum", "trait", "host", "generic_term", "projection", "self_type")


class Unreadable(Exception):
    """The first fault met; its argument is the refusal of document 01 or 02."""


class Bytes:
    """Reads bytes from left to right and gives their text.

    Terms are read without recursion, since answers have no limit of levels:
    a step is a text, or a method with its arguments, which reads on and
    gives more steps.
    """

    def __init__(self, data, names=NO_NAMES, levels=LEVELS):
        self.data = data
        self.at = 0
        self.names = names
        self.levels = levels
        self.unlisted_sign = False

    # Bytes and numbers

    def byte(self):
        if self.at == len(self.data):
            raise Unreadable(1)
        self.at += 1
        return self.data[self.at - 1]

    def listed(self, how_many):
        value = self.byte()
        if value >= how_many:
            raise Unreadable(2)
        return value

    def count(self):
        """A number, as an int."""
        value, weight = 0, 1
        while True:
            byte = self.byte()
            value += byte % 128 * weight
            # If more groups follow, the last of them is at least 1.
            least = value + 128 * weight if byte >= 128 else value
            if least > MOST or (byte == 0 and weight > 1):
                raise Unreadable(3)
            if byte < 128:
                return value
            weight *= 128

    def used_up(self):
        if self.at < len(self.data):
            raise Unreadable(1)

    # Terms, in steps. below is the level of what lies inside the term.

    def said(self, *steps):
        out, left = [], list(reversed(steps))
        while left:
            step = left.pop()
            if isinstance(step, str):
                out.append(step)
            else:
                left.extend(reversed(step[0](*step[1:])))
        return "".join(out)

    def a_term(self, level):
        if level > self.levels:
            raise Unreadable(4)
        return getattr(self, TAGS[self.listed(len(TAGS))])(level + 1)

    def row(self, left, below, before=""):
        """So many terms with commas, one at a time: a count may be larger than the bytes are many."""
        return [before, (self.a_term, below), (self.row, left - 1, below, ", ")] if left else []

    def reference(self, below):
        return ["&mut " if self.listed(2) else "&", (self.a_term, below)]

    def inference(self, below):
        number = self.count()
        return ["?" + self.names.bare(("variable",), number)]

    def unknown(self, below):
        return ["unknown"]

    def error(self, below):
        return ["error"]

    def builtin_term(self, below):
        return [self.builtin()]

    def tuple(self, below):
        count = self.count()
        return ["(", (self.row, count, below), ",)" if count == 1 else ")"]

    def function(self, below):
        return ["fn(", (self.row, self.count(), below), ") -> ", (self.a_term, below)]

    def iter(self, below):
        return ["Iter<", (self.a_term, below), ">"]

    def range(self, below):
        return ["Range %d<" % self.listed(4), (self.a_term, below), ">"]

    def array(self, below):
        return ["Array<", (self.a_term, below), ">"]

    def map(self, below):
        return [self.mutability() + "Map<", (self.a_term, below), ", ", (self.a_term, below), ">"]

    def set(self, below):
        return [self.mutability() + "Set<", (self.a_term, below), ">"]

    def mutability(self):
        return "Mutable" if self.listed(2) else ""

    def native(self, below):
        return self.a_nominal("native", below)

    def struct(self, below):
        return self.a_nominal("struct", below)

    def enum(self, below):
        return self.a_nominal("enum", below)

    def trait(self, below):
        return self.a_nominal("trait", below)

    def a_nominal(self, sort, below):
        head = self.names.said(sort, self.count())
        count = self.count()
        return [head, "<" if count else "", (self.row, count, below), (self.members, count, below)]

    def members(self, arguments, below):
        count = self.count()
        closing = ">" if arguments or count else ""
        return [(self.member, count, -1, below, ", " if arguments else "<"), closing]

    def member(self, left, last, below, before):
        if not left:
            return []
        member = self.count()
        if member <= last:
            raise Unreadable(5)
        name = self.names.bare(("member",), member)
        return ["%s%s = " % (before, name), (self.a_term, below), (self.member, left - 1, member, below, ", ")]

    def host(self, below):
        return [self.names.said("host", self.count())]

    def generic_term(self, below):
        return [self.generic()]

    def self_type(self, below):
        return ["Self " + self.owner()]

    def projection(self, below):
        return ["<", (self.a_term, below), " as ", (self.a_nominal, "trait", below), ">::", (self.projected, below)]

    def projected(self, below):
        name = self.names.bare(("member",), self.count())
        count = self.count()
        return [name, "<", (self.row, count, below), ">"] if count else [name]

    # The fields of orders

    def number(self):
        return str(self.count())

    def owner(self):
        return self.names.bare(OWNERS, self.count())

    def generic(self):
        owner = self.count()
        return self.names.generic(owner, self.count())

    def builtin(self):
        code = self.listed(CODES)
        return BUILTINS[code] if code < len(BUILTINS) else "builtin %d" % code

    def bound(self):
        sign, high, low = self.byte(), self.count(), self.count()
        self.unlisted_sign |= sign > 1
        return "%s%d" % ("-" if sign else "", high * (MOST + 1) + low)

    def checks(self):
        """The largest number of checks is not said."""
        checks = self.count()
        return "" if checks == MOST else "checks %d:" % checks

    def term(self):
        return self.said((self.a_term, 1))

    def nominal(self):
        return self.said((self.a_nominal, "trait", 1))

    def terms(self):
        return "[%s]" % ", ".join([self.term() for _ in range(self.count())])

    def substitution(self):
        entries = ["%s = %s" % (self.generic(), self.term()) for _ in range(self.count())]
        entries += ["Self %s = %s" % (self.owner(), self.term()) for _ in range(self.count())]
        return "{%s}" % ", ".join(entries)

    def parameters(self):
        return "[%s]" % ", ".join([self.generic() for _ in range(self.count())])

    def rules(self):
        return "[%s]" % ", ".join([self.rule() for _ in range(self.count())])

    def rule(self):
        interface, receiver = self.nominal(), self.term()
        projected = self.said((self.projected, 1))
        return "<%s as %s>::%s = %s" % (receiver, interface, projected, self.term())

    def order(self):
        pieces, kind = [], self.byte()
        if kind not in ORDERS:
            raise Unreadable(2)
        for piece in ORDERS[kind].split():
            pieces.append(getattr(self, piece[1:-1])() if piece.startswith("{") else piece)
        self.used_up()
        if self.unlisted_sign:
            raise Unreadable(13)
        return " ".join(piece for piece in pieces if piece)

    # Answers

    def value(self, form):
        if form in ("term", "number"):
            return getattr(self, form)()
        if form == "nothing":
            return "done"
        if form == "maybe":
            return self.term() if self.listed(2) else "none"
        if form[0] == "flags":
            return ", ".join([word for word in form[1] if self.listed(2)]) or "none"
        return form[self.listed(len(form))]


def hexadecimal(data):
    return " ".join("%02x" % byte for byte in data)


def raw(data):
    return ("bytes " + hexadecimal(data)).strip()


def order_text(order, names=NO_NAMES):
    """The line of an order, and why it could not be read or None."""
    try:
        return Bytes(order, names).order(), None
    except Unreadable as fault:
        return raw(order), REFUSALS[fault.args[0]]


def answer_text(kind, answer, names=NO_NAMES):
    """An answer to an order of this kind. The kind None has no values."""
    if len(answer) == 1 and answer[0]:
        words = REFUSALS.get(answer[0])
        return "refused %d%s" % (answer[0], " (%s)" % words if words else "")
    fields = Bytes(answer, names, float("inf"))
    try:
        if kind is None or fields.byte():
            return raw(answer)
        text = fields.value(ANSWERS[kind])
        fields.used_up()
        return text
    except Unreadable:
        return raw(answer)


def split(data):
    """The orders of a sheet, or the answers of a run, without their lengths; and the bytes from the first faulty length on."""
    parts, lengths, end = [], Bytes(data), 0
    while end < len(data):
        lengths.at = end
        try:
            length = lengths.count()
        except Unreadable:
            break
        if length > len(data) - lengths.at:
            break
        end = lengths.at + length
        parts.append(data[lengths.at:end])
    return parts, data[end:]


def kind_of(order):
    """The kind of an order; None where it has none that is listed."""
    return order[0] if order and order[0] in ORDERS else None

