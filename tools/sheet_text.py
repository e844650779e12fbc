"""Sheets and answers as text.

assemble(text) is the Script of a text: its lines, its names and the bytes of
its sheet. show(sheet) is the text of any bytes, and assembles to the same
bytes. transcript(script, answers) shows each answer beside its order.
docs/TEXT.md has the grammar.
"""

from sheet_parsing import Line
from sheet_reading import answer_text, hexadecimal, kind_of, order_text, split
from sheet_tokens import TextError
from sheet_words import Names, framed

WIDEST = 60         # answers stand in one column, if their orders are not longer
SUMMARY = "##"      # comments that a run writes; a run leaves out those of an earlier one

RUN_0 = "The whole sheet is answered (run 0)."
RUN_10 = "The next length is faulty or goes beyond the sheet (run 10); the answers before it stand."
RUN_11 = "The next answer does not fit whole in the output (run 11); that order has no effect."
ODD = "These answers do not belong to this sheet."


class Entry:
    """One line of a text. order is None in lines without an order."""

    def __init__(self, text, comment="", order=None, stated=None, naming=None):
        self.text = text            # as it was written, without comment and stated answer
        self.comment = comment
        self.order = order
        self.stated = stated
        self.naming = naming        # name, sort and numbers of a line `name`


class Script:
    def __init__(self):
        self.entries = []
        self.tail = b""             # bytes behind the last order

    def orders(self):
        return [entry.order for entry in self.entries if entry.order is not None]

    def sheet(self):
        return b"".join(map(framed, self.orders())) + self.tail


# From text

def assemble(text):
    """The Script of a text. The first fault raises TextError with its line and column."""
    script, names = Script(), Names()
    for number, line in enumerate(text.split("\n"), 1):
        try:
            script.entries.append(entry_of(Line(line, names), script))
        except TextError as fault:
            fault.line = number
            raise
    if script.entries[-1].text == script.entries[-1].comment == "":
        script.entries.pop()
    return script


def entry_of(line, script):
    """The Entry of a line."""
    order = stated = naming = None
    first = line.peek()
    if first and script.tail:
        line.fail("the end of the text, since nothing is read after 'tail'")
    if line.taken("name"):
        naming = line.name()
    elif line.taken("tail"):
        script.tail = tail_of(line)
    elif first:
        order = line.order()
    end = line.at
    if order is not None and line.taken("=>"):
        stated = line.answer(kind_of(order))
    if line.peek():
        line.fail("the end of the line" + (" or '=>'" if order is not None and stated is None else ""))
    comment = line.text[line.at:].rstrip()
    return Entry(line.text[:end].strip(), comment, order, stated, naming)


def tail_of(line):
    """Bytes that stand behind the last order and are no order."""
    line.skip()
    start = line.at
    tail = line.raw()
    if not tail or split(tail)[0]:
        line.at = start
        line.fail("bytes that do not start with a whole order")
    return tail


def located(fault, file, text):
    """A fault as FILE:LINE:COLUMN, with the line and a mark under the column."""
    line, at = text.split("\n")[fault.line - 1].rstrip("\r"), fault.column - 1
    start = max(0, at - 80)
    shown = "".join(letter if letter.isprintable() or letter == "\t" else "?" for letter in line[start:start + 120])
    before, after = "..." if start else "", "..." if len(line) > start + 120 else ""
    mark = "".join("\t" if letter == "\t" else " " for letter in before + shown[:at - start])
    return "%s:%d:%d: %s\n    %s\n    %s^" % (file, fault.line, fault.column, fault.message, before + shown + after, mark)


# From bytes

def script_of(sheet):
    """The Script of any bytes. What cannot be read stands there as bytes, with the reason as a comment."""
    script = Script()
    orders, tail = split(sheet)
    for order in orders:
        text, reason = order_text(order)
        script.entries.append(Entry(text, "# cannot be read: " + reason if reason else "", order))
    if tail:
        reason = "# no order: the length is faulty or goes beyond the sheet"
        script.entries.append(Entry("tail " + hexadecimal(tail), reason))
        script.tail = tail
    return script


def show(sheet):
    return "".join(line + "\n" for line in plain_lines(script_of(sheet)))


def plain_lines(script):
    return [joined(entry.text, entry.comment) for entry in script.entries]


def joined(*parts):
    return "  ".join(part for part in parts if part)


# Orders beside answers

def reason_of(sheet, answers):
    """Why a run ended, as far as its answers tell. The program does not say it."""
    orders, tail = split(sheet)
    found, rest = split(answers)
    texts = [answer_text(kind_of(order), answer) for order, answer in zip(orders, found)]
    if rest or len(found) > len(orders) or any(text.startswith("bytes") for text in texts):
        return ODD
    if len(found) < len(orders):
        return RUN_11
    return RUN_10 if tail else RUN_0


def transcript(script, answers, bytes_too=False):
    """The lines of a script with the answers beside the orders, and the number of answers that are not as stated."""
    left = split(answers)[0][::-1]
    texts = [entry.text for entry in script.entries if entry.order is not None and len(entry.text) <= WIDEST]
    width = max(map(len, texts), default=0)
    lines, wrong, names = [], 0, Names()
    for entry in script.entries:
        comment = "" if entry.comment.startswith(SUMMARY) else entry.comment
        if entry.naming:
            names.add(*entry.naming)
        if entry.order is None:
            if entry.text or comment or not entry.comment:
                lines.append(joined(entry.text, comment))
            continue
        answer = left.pop() if left else None
        differs = entry.stated not in (None, answer)
        wrong += differs
        lines.append(joined(answered(entry, answer, width, names), stated(entry, names) if differs else "", comment))
        if bytes_too:
            lines.append(bytes_line(entry.order, answer))
    return lines, wrong


def answered(entry, answer, width, names):
    return entry.text if answer is None else "%-*s => %s" % (width, entry.text, answer_text(kind_of(entry.order), answer, names))


def stated(entry, names):
    return "%s stated: %s" % (SUMMARY, answer_text(kind_of(entry.order), entry.stated, names))


def bytes_line(order, answer):
    text = "%s     %s" % (SUMMARY, hexadecimal(framed(order)))
    return text if answer is None else "%s => %s" % (text, hexadecimal(framed(answer)))


def count(how_many, what):
    return "%d %s%s" % (how_many, what, "" if how_many == 1 else "s")


def summary(script, answers, wrong=0, room=None):
    """What a run did, as comments. room is what the program reads and writes at most, None where that is not known."""
    sheet = script.sheet()
    read = sheet if room is None else sheet[:room]
    found, _ = split(answers)
    lines = ["%s, %s; %s, %s." % (count(len(script.orders()), "order"), count(len(sheet), "byte"),
                                  count(len(found), "answer"), count(len(answers), "byte"))]
    if len(read) < len(sheet):
        lines.append("The program reads the first %d bytes only." % room)
    lines.append(reason_of(read, answers))
    if wrong:
        lines.append("%s not as stated." % ("1 answer is" if wrong == 1 else "%d answers are" % wrong))
    return ["%s %s" % (SUMMARY, line) for line in lines]

