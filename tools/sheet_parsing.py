"""From text to bytes: orders, terms and stated answers.

A Line reads one line from left to right. Each of its methods for a field
gives the bytes of that field. The first fault raises TextError.
"""

import sys

from sheet_tokens import Tokens, near
from sheet_words import (
    ANSWERS, BUILTINS, CODES, COLLECTIONS, LEVELS, MOST, MOST_BOUND, NAME, NOMINALS, ORDERS, OWNERS, RESERVED, SORTS, number_bytes)

# A level takes up to four Python calls.
sys.setrecursionlimit(20000)

# The levels of a stated answer: more than an answer of the program has, since a session keeps 2,048 nodes.
ANSWER_LEVELS = 2400
LEAVES = {"unknown": b"\x02", "error": b"\x03"}
PATTERNS = {kind: pattern.split() for kind, pattern in ORDERS.items()}
# By kind: the kind whose pattern goes on where this one ends.
LONGER = {kind: other for kind, pattern in PATTERNS.items() for other, longer in PATTERNS.items() if longer[:len(pattern)] == pattern and other != kind}
FIRST_WORDS = sorted({pattern[0] for pattern in PATTERNS.values()}) + ["bytes", "tail", "name"]


def counted(items):
    return number_bytes(len(items)) + b"".join(items)


class Line(Tokens):
    """Reads an order, a name or a stated answer."""

    def __init__(self, text, names):
        super().__init__(text, names)
        self.levels = LEVELS

    # Terms. below is the level of what lies inside the term.

    def term(self, level=1):
        if level > self.levels:
            self.fail("a term of at most %d levels" % self.levels)
        token, below = self.peek(), level + 1
        if token in LEAVES:
            return LEAVES[self.take()]
        if token in BUILTINS or token == "builtin":
            return b"\x04" + self.builtin()
        if token in COLLECTIONS:
            return self.collection(below)
        if token in NOMINALS or self.named(NOMINALS):
            sort = token if token in NOMINALS else self.names.meaning(token)[0]
            return bytes([NOMINALS[sort]]) + self.nominal(below, sort)
        if token == "host" or self.named(("host",)):
            self.taken("host")
            return b"\x10" + number_bytes(self.definition(("host",), "a host type"))
        if token == "generic" or self.named(("generic",)):
            return b"\x11" + self.generic()
        method = self.METHODS.get(token)
        if not method:
            self.fail("a term", self.about_name())
        self.take()
        return method(self, below)

    def reference(self, below):
        return (b"\x00\x01" if self.taken("mut") else b"\x00\x00") + self.term(below)

    def inference(self, below):
        return b"\x01" + number_bytes(self.definition(("variable",), "a variable"))

    def tuple(self, below):
        items = []
        while self.peek() != ")":
            items.append(self.term(below))
            if not self.taken(","):
                if len(items) == 1:
                    self.fail("','", " (a tuple of one is written as (i32,))" if self.peek() == ")" else "")
                break
        self.expect(")", " or ','" if items else "")
        return b"\x05" + counted(items)

    def function(self, below):
        parameters = self.between("(", lambda: self.term(below), ")")
        self.expect("->")
        return b"\x06" + counted(parameters) + self.term(below)

    def inside(self, below):
        self.expect("<")
        inside = self.term(below)
        self.expect(">")
        return inside

    def iter(self, below):
        return b"\x07" + self.inside(below)

    def range(self, below):
        kind = self.integer("a range kind from 0", 3)
        return bytes([8, kind]) + self.inside(below)

    def array(self, below):
        return b"\x09" + self.inside(below)

    def collection(self, below):
        head = bytes(COLLECTIONS[self.take()])
        if head[0] == 11:
            return head + self.inside(below)
        self.expect("<")
        key = self.term(below)
        self.expect(",")
        value = self.term(below)
        self.expect(">")
        return head + key + value

    def self_type(self, below):
        return b"\x13" + self.owner()

    def projection(self, below):
        receiver, interface, projected = self.projected(below)
        return b"\x12" + receiver + interface + projected

    def projected(self, below):
        """What follows the first < of a projection: the receiver, the interface, the member with its arguments."""
        receiver = self.term(below)
        self.expect("as")
        interface = self.nominal(below)
        self.expect(">")
        self.expect("::")
        member = number_bytes(self.definition(("member",), "a member"))
        arguments = self.between("<", lambda: self.term(below), ">") if self.peek() == "<" else []
        return receiver, interface, member + counted(arguments)

    METHODS = {
        "&": reference, "?": inference, "(": tuple, "<": projection, "fn": function, "Iter": iter, "Range": range,
        "Array": array, "Self": self_type}

    # Nominals

    def nominal(self, below=1, sort="trait"):
        """The sort's word with a number, or a name of this sort; then arguments and members."""
        if self.taken(sort):
            declaration = self.definition((sort,), "a %s" % sort)
        elif self.named((sort,)):
            declaration = self.names.meaning(self.take())[1][0]
        else:
            self.fail("'%s' or the name of a %s" % (sort, sort), self.about_name())
        arguments, members, last = [], [], -1
        if self.taken("<"):
            while True:
                if members or self.is_number() or self.named(("member",)):
                    last, member = self.member(last, below)
                    members.append(member)
                else:
                    arguments.append(self.term(below))
                if not self.taken(","):
                    break
            self.expect(">", " or ','")
        return number_bytes(declaration) + counted(arguments) + counted(members)

    def member(self, last, below):
        start = self.at
        number = self.definition(("member",), "a member")
        if number <= last:
            self.at = start
            self.fail("a member above %d, since members rise" % last)
        self.expect("=")
        return number, number_bytes(number) + self.term(below)

    # The fields of orders

    def number(self):
        return number_bytes(self.integer())

    def owner(self):
        return number_bytes(self.definition(OWNERS, "an owner"))

    def generic(self):
        if self.named(("generic",)):
            return b"".join(map(number_bytes, self.names.meaning(self.take())[1]))
        if not self.taken("generic"):
            self.fail("'generic' or the name of a generic", self.about_name())
        owner = self.owner()
        self.expect(".")
        return owner + self.number()

    def builtin(self):
        if self.taken("builtin"):
            return bytes([self.integer("a builtin code", CODES - 1)])
        if self.peek() not in BUILTINS:
            self.fail("a builtin type, as i32 or builtin 11")
        return bytes([BUILTINS.index(self.take())])

    def bound(self):
        minus = self.taken("-")
        size = self.integer("a bound", MOST_BOUND)
        return bytes([minus]) + number_bytes(size // (MOST + 1)) + number_bytes(size % (MOST + 1))

    def checks(self):
        if not self.taken("checks"):
            return number_bytes(MOST)
        checks = self.number()
        self.expect(":")
        return checks

    def terms(self):
        return counted(self.between("[", self.term, "]"))

    def substitution(self):
        """Entries for generics, and behind them entries for Self."""
        entries, receivers = [], []

        def entry():
            if self.taken("Self"):
                receivers.append(self.replaced(self.owner))
            elif receivers:
                self.fail("'Self', since entries for generics stand before those for Self")
            else:
                entries.append(self.replaced(self.generic))

        self.between("{", entry, "}")
        return counted(entries) + counted(receivers)

    def replaced(self, field):
        head = field()
        self.expect("=")
        return head + self.term()

    def parameters(self):
        return counted(self.between("[", self.generic, "]"))

    def rules(self):
        return counted(self.between("[", self.rule, "]"))

    def rule(self):
        self.expect("<")
        receiver, interface, projected = self.projected(1)
        self.expect("=")
        return interface + receiver + projected + self.term()

    # Lines

    def order(self):
        """The bytes of an order."""
        if self.taken("bytes"):
            return self.raw()
        first = self.peek()
        kinds = [kind for kind, pattern in PATTERNS.items() if pattern[0] == first and kind not in LONGER.values()]
        if not kinds:
            self.fail("an order", near(first, FIRST_WORDS))
        self.take()
        kind, rest = self.told_apart(kinds)
        out = self.pieces(rest)
        if kind in LONGER:
            more = PATTERNS[LONGER[kind]][len(PATTERNS[kind]):]
            if self.peek() == more[0]:
                return bytes([LONGER[kind]]) + out + self.pieces(more)
        return bytes([kind]) + out

    def pieces(self, pattern):
        """The bytes of the fields of a pattern."""
        out = b""
        for piece in pattern:
            if piece.startswith("{"):
                out += getattr(self, piece[1:-1])()
            else:
                self.expect(piece)
        return out

    def told_apart(self, kinds):
        """Of kinds with the same first word the one that goes on as the line does, and what is left of its pattern. One of them may go on with a field."""
        words = {PATTERNS[kind][1]: kind for kind in kinds if len(PATTERNS[kind]) > 1 and not PATTERNS[kind][1].startswith("{")}
        others = [kind for kind in kinds if kind not in words.values()]
        if len(kinds) == 1 or others and self.peek() not in words:
            kind = (others or kinds)[0]
            return kind, PATTERNS[kind][1:]
        kind = list(words.values())[self.one_of(list(words))]
        return kind, PATTERNS[kind][2:]

    def name(self):
        """What follows the word `name`: a sort, a name, and the numbers it stands for. Gives these three.

        Variables stand behind a question mark, so that any word can be the name of one.
        """
        sort = SORTS[self.one_of(SORTS)]
        name = self.peek()
        if not NAME.fullmatch(name):
            self.fail("a name")
        if name in RESERVED and sort != "variable":
            self.fail("a name", ", which is a word of the text form")
        if self.names.meaning(name)[0]:
            self.fail("a new name", self.about_name())
        self.take()
        self.expect("=")
        first = self.definition(OWNERS, "an owner") if sort == "generic" else self.integer()
        if sort == "generic":
            self.expect(".")
        numbers = (first, self.integer()) if sort == "generic" else (first,)
        self.names.add(name, sort, numbers)
        return name, sort, numbers

    # Stated answers

    def answer(self, kind):
        """The bytes of an answer to an order of this kind, without its length."""
        self.levels = ANSWER_LEVELS
        if self.taken("bytes"):
            return self.raw()
        if self.taken("refused"):
            refusal = self.integer("a refusal", 255)
            if self.peek() == "(":
                self.at = (self.text.find(")", self.at) + 1) or len(self.text)
            return bytes([refusal])
        if kind is None:
            self.fail("'refused' or 'bytes'")
        return b"\x00" + self.value(ANSWERS[kind])

    def value(self, form):
        if form in ("term", "number"):
            return getattr(self, form)()
        if form == "nothing":
            self.expect("done")
            return b""
        if form == "maybe":
            return b"\x00" if self.taken("none") else b"\x01" + self.term()
        if form[0] == "flags":
            return self.flags(form[1])
        return bytes([self.one_of(form)])

    def flags(self, words):
        held = []
        if not self.taken("none"):
            held.append(self.one_of(words))
            while self.taken(","):
                held.append(self.one_of(words))
        return bytes(place in held for place in range(len(words)))

