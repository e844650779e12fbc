"""Finds the items of a Rust source: functions, types, impl blocks.

An item is found by its name, and its braces say where it ends. Comments,
strings and characters are read over. Block comments do not nest here.
"""

import re

SKIPPED = re.compile(
    r"""//[^\n]*"""
    r"""|/\*.*?\*/"""
    r"""|\bb?r(?P<marks>\#*)".*?"(?P=marks)"""
    r"""|b?"(?:\\.|[^"\\])*\""""
    r"""|b?'(?:\\.[^']*|[^\\'])'""", re.DOTALL)
PAIRS = {")": "(", "]": "[", "}": "{"}
# These end with a semicolon, also after a brace.
TO_SEMICOLON = re.compile(r"(?:use|const|static|type)\b(?!\s+fn\b)")


class NotFound(Exception):
    """The source is not as expected; the argument says where."""


def blanked(text):
    """The text with comments, strings and characters made blank, of the same length."""
    return SKIPPED.sub(lambda found: re.sub(r"[^\n]", " ", found.group()), text)


def header(plain):
    """The words before an item's block, without attributes and visibility."""
    words = re.sub(r"#!?\[[^\]]*\]", " ", plain)
    words = " ".join(words.split())
    return re.sub(r"^pub(?:\([a-z ]+\))? ", "", words)


class Item:
    """One item. name is 'fn NAME' for a function, else the whole header."""

    def __init__(self, text, plain, start, brace, end):
        self.text = text[start:end]
        self.inside = None if brace is None else text[brace + 1:end - 1]
        words = header(plain[start:end if brace is None else brace])
        function = re.match(r"(?:const |async |unsafe )*(fn \w+)", words)
        self.name = function.group(1) if function else words.rstrip(";")

    def without_visibility(self):
        """The text as a trait's impl block needs it."""
        return re.sub(r"\bpub(?:\([a-z ]+\))? fn\b", "fn", self.text, count=1)


def item_end(plain, start):
    """The first brace of the item at start, or None, and the place after the item."""
    to_semicolon = TO_SEMICOLON.match(header(plain[start:]))
    opened, brace = [], None
    for at in range(start, len(plain)):
        sign = plain[at]
        if sign in "([{":
            if sign == "{" and not opened and brace is None:
                brace = at
            opened.append(sign)
        elif sign in PAIRS:
            if not opened or opened.pop() != PAIRS[sign]:
                raise NotFound("a bracket that was not opened, at line %d" % (plain.count("\n", 0, at) + 1))
            if sign == "}" and not opened and not to_semicolon:
                return brace, at + 1
        elif sign == ";" and not opened:
            return None, at + 1
    raise NotFound("the item at line %d does not end" % (plain.count("\n", 0, start) + 1))


def items(text):
    """The items of a file or of a block, in turn."""
    plain = blanked(text)
    found, at = [], 0
    while True:
        start = at + len(plain[at:]) - len(plain[at:].lstrip())
        if start == len(plain):
            return found
        brace, at = item_end(plain, start)
        found.append(Item(text, plain, start, brace, at))


def the_one(found, name, where):
    """The item of that name; there must be exactly one."""
    same = [item for item in found if item.name == name]
    if len(same) != 1:
        raise NotFound("%s has %s item '%s'" % (where, "no" if not same else "more than one", name))
    return same[0]


def inside_of(found, name, where):
    """The items inside all blocks of that name."""
    blocks = [item for item in found if item.name == name and item.inside is not None]
    if not blocks:
        raise NotFound("%s has no block '%s'" % (where, name))
    return [inner for block in blocks for inner in items(block.inside)]
