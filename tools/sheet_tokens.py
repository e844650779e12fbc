"""The tokens of a line of text, numbers and names among them, and the fault that a text has."""

import difflib
import re

from sheet_words import BUILTINS, COLLECTIONS, MOST, NAME, NOMINALS, RESERVED, TERM_WORDS

TOKEN = re.compile(r"=>|->|::|[A-Za-z0-9_]+|[^#]")
SPACE = re.compile(r"[ \t\r\f\v]*")
DIGITS = re.compile("[0-9]+")
HEX = re.compile("([0-9a-fA-F]{2})+")


class TextError(Exception):
    """A fault of a text: what was expected and what was found, with the column. The line is added by sheet_text.py."""

    def __init__(self, message, column):
        super().__init__(message)
        self.message = message
        self.column = column
        self.line = None


def near(word, words):
    """The question whether another word is meant; empty where none is like it."""
    small = {each.lower(): each for each in words}
    found = difflib.get_close_matches(word.lower(), small, 1)
    return " (is it '%s'?)" % small[found[0]] if found else ""


class Tokens:
    """One line, read from left to right. names are those that the lines before it give."""

    def __init__(self, text, names):
        self.text = text
        self.names = names
        self.at = 0

    def skip(self):
        self.at = SPACE.match(self.text, self.at).end()

    def peek(self):
        """The token at hand; empty at the end of the line and before a comment."""
        self.skip()
        found = TOKEN.match(self.text, self.at)
        return found.group() if found else ""

    def take(self):
        token = self.peek()
        self.at += len(token)
        return token

    def taken(self, token):
        """Whether the token at hand is this one, which is then taken."""
        found = self.peek() == token
        if found:
            self.at += len(token)
        return found

    def fail(self, expected, more=""):
        """The token at hand is not what was expected."""
        token = self.peek()
        shown = token if len(token) <= 30 else token[:27] + "..."
        shown = "'%s'" % shown if shown.isprintable() else ascii(shown)
        raise TextError("expected %s, found %s%s" % (expected, shown if token else "the end of the line", more), self.at + 1)

    def expect(self, token, why=""):
        if not self.taken(token):
            self.fail("'%s'%s" % (token, why))

    def one_of(self, words):
        """The place of the word at hand among the words."""
        if self.peek() not in words:
            self.fail(" or ".join("'%s'" % word for word in words))
        return words.index(self.take())

    def is_number(self):
        return bool(DIGITS.fullmatch(self.peek()))

    def integer(self, what="a number", most=MOST):
        token = self.peek()
        if not self.is_number():
            self.fail(what)
        if len(token.lstrip("0")) > len(str(most)) or int(token) > most:
            self.fail("%s up to %d" % (what, most))
        return int(self.take())

    def named(self, sorts):
        """Whether the token at hand is a name of one of the sorts."""
        return self.names.meaning(self.peek())[0] in sorts

    def definition(self, sorts, what):
        """A number, or a name of one of the sorts."""
        if self.named(sorts):
            return self.names.meaning(self.take())[1][0]
        if not self.is_number():
            self.fail("%s's number or name" % what, self.about_name())
        return self.integer()

    def about_name(self):
        """What to say of a word that is not the name that was expected."""
        token = self.peek()
        if not NAME.fullmatch(token) or token in RESERVED:
            return ""
        sort = self.names.meaning(token)[0]
        if sort:
            return ", which is the name of a %s" % sort
        return ", which no line before names" + near(token, [*BUILTINS, *NOMINALS, *COLLECTIONS, *TERM_WORDS, *self.names.meanings])

    def between(self, opening, item, closing):
        """Items with commas between two marks."""
        self.expect(opening)
        items = []
        while items or self.peek() != closing:
            items.append(item())
            if not self.taken(","):
                break
        self.expect(closing, " or ','" if items else "")
        return items

    def raw(self):
        """Bytes, as hexadecimal digits."""
        out = bytearray()
        while True:
            token = self.peek()
            if token in ("", "=>"):
                return bytes(out)
            if not HEX.fullmatch(token):
                self.fail("pairs of hexadecimal digits")
            out += bytes.fromhex(token)
            self.at += len(token)
