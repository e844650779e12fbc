"""The words of the text form: orders, answers, terms, refusals and names.

The reader of bytes (sheet_reading.py) and the reader of text
(sheet_parsing.py) both go by these tables. An order is a line of ORDERS, so
that a new order is a new line there and in ANSWERS. Numbers may be left out.
"""

import re

MOST = 4294967295
MOST_BOUND = 18446744073709551615
LEVELS = 200
CODES = 32
ROOM = 32768        # what the sheet program reads and writes at most

# By kind: the words of an order, and its fields in the order of the byte form.
ORDERS = dict(enumerate((
    "variable site {number} slot {number}",
    "number site {number} fallback {builtin}",
    "hole site {number}",
    "defer never {term}",
    "constrain {checks} {term} = {term}",
    "resolve {term}",
    "defaults numbers",
    "defaults never",
    "revision",
    "conflicts {term} with {term}",
    "weakens {term} to {term}",
    "recover {term} from {term}",
    "instantiate {substitution} in {term}",
    "argument context {substitution} parameters {parameters} in {term}",
    "with Self {owner} = {term} in {term}",
    "questions {term}",
    "resolved in {parameters} for {term}",
    "satisfies {nominal} required {nominal} receiver {term}",
    "family {parameters} value {term} outer {substitution} arguments {terms}",
    "associated {term} interface {nominal} owner {term}",
    "normalise {rules} in {term}",
)))
ORDERS[21] = ORDERS[1] + " from {bound} to {bound}"
ORDERS[22] = "constrain strictly {checks} {term} = {term}"

TRUTH = ("no", "yes")
CHANGE = ("unchanged", "changed")
VERDICT = ("incompatible", "compatible", "cancelled")
QUESTIONS = ("is_never", "is_integer", "is_concrete", "is_unresolved", "contains_unknown", "contains_self_type", "contains_projection")
BOUNDS = ("satisfies", "satisfies_for")

# By kind: the form of the value. A tuple of words has one byte, which says the word's place. "flags" has a byte for each word.
ANSWERS = dict(enumerate((
    "term", "term", "term", "nothing", VERDICT, "term", CHANGE, CHANGE, "number", TRUTH, TRUTH, "term", "term", "term", "term",
    ("flags", QUESTIONS), TRUTH, ("flags", BOUNDS), "maybe", "term", "term")))
ANSWERS[21] = "term"
ANSWERS[22] = VERDICT

REFUSALS = {
    1: "the order ends early, or has bytes after its last field",
    2: "a kind, tag, code, access or range kind that is not listed",
    3: "a number that is too large or not in its shortest form",
    4: "a term of more than 200 levels",
    5: "members that do not strictly rise",
    6: "a variable that is not issued",
    7: "more than 2,048 nodes, those of this order and those kept by pairs that bound a variable",
    8: "a new variable while 512 exist",
    9: "more than 8,192 children met in normalising",
    13: "a sign over 1, a low bound above the high one, or no integer type that holds both",
}

BUILTINS = ("i8", "i16", "i32", "i64", "u8", "u16", "u32", "u64", "f32", "f64", "never")
NOMINALS = {"native": 12, "struct": 13, "enum": 14, "trait": 15}
COLLECTIONS = {"Map": (10, 0), "MutableMap": (10, 1), "Set": (11, 0), "MutableSet": (11, 1)}
TERM_WORDS = ("unknown", "error", "builtin", "mut", "fn", "Iter", "Range", "Array", "host", "generic", "Self", "as")

# The sorts of names. An owner is a definition of any sort but a member.
OWNERS = ("owner",) + tuple(NOMINALS) + ("host",)
SORTS = OWNERS + ("member", "generic", "variable")

# A name cannot be one of these words.
RESERVED = {word for pattern in ORDERS.values() for word in pattern.split() if word.isalpha()}
RESERVED.update(BUILTINS, NOMINALS, COLLECTIONS, TERM_WORDS, SORTS, TRUTH, CHANGE, VERDICT, QUESTIONS, BOUNDS)
RESERVED.update(("bytes", "tail", "name", "checks", "none", "done", "refused"))

NAME = re.compile("[A-Za-z_][A-Za-z0-9_]*")


def number_bytes(value):
    """The shortest form of a number: base 128, low group first, the top bit set where more follow."""
    out = bytearray()
    while value >= 128:
        out.append(value % 128 + 128)
        value //= 128
    out.append(value)
    return bytes(out)


def framed(order):
    """An order, or an answer, with its length before it."""
    return number_bytes(len(order)) + order


class Names:
    """Names that a text gives to definitions, members, generics and variables.

    A name stands for a sort and its numbers: owner and position for a
    generic, one number for all other sorts.
    """

    def __init__(self):
        self.meanings = {}      # name: (sort, numbers)
        self.spoken = {}        # (sort, numbers): name

    def add(self, name, sort, numbers):
        self.meanings[name] = sort, numbers
        self.spoken.setdefault((sort, numbers), name)

    def meaning(self, name):
        return self.meanings.get(name, (None, ()))

    def said(self, sort, number):
        """As `struct 12`, or the name alone."""
        return self.spoken.get((sort, (number,))) or "%s %d" % (sort, number)

    def bare(self, sorts, number):
        """The number alone, or a name of one of the sorts."""
        return next((self.spoken[sort, (number,)] for sort in sorts if (sort, (number,)) in self.spoken), str(number))

    def generic(self, owner, position):
        return self.spoken.get(("generic", (owner, position))) or "generic %s.%d" % (self.bare(OWNERS, owner), position)
