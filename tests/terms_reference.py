#!/usr/bin/env python3
"""An independent reader of frames, written from document 01.

answer(frame) is the answer to the bytes of one frame.
run(data) is the answers to an input, which is a run of frames.

  python3 tests/terms_reference.py < INPUT > ANSWERS

A read term is a pair (tag, parts). The parts are the numbers and the terms
that follow the tag, in the order of the byte form. A bare nominal has the
tag None.

This is the lowest of the three references; orders_reference.py and
sheet_reference.py read by its Reader. None of them shares a line with the
programs, with tools or with tests/oracle: what they agree on was written
twice, and that is what the comparisons rest on.
"""

import sys

# A level of terms takes up to six Python calls, and there are at most 200.
sys.setrecursionlimit(10000)

# The fields of each tag, and those of a nominal. The names are methods of
# Reader.
FIELDS = {
    0: ("access", "one_term"),                          # Reference
    1: ("inference_id",),                               # Inference
    2: (),                                              # Unknown
    3: (),                                              # Error
    4: ("code",),                                       # Builtin
    5: ("terms",),                                      # Tuple
    6: ("terms", "one_term"),                           # Function
    7: ("one_term",),                                   # Iter
    8: ("range_kind", "one_term"),                      # Range
    9: ("one_term",),                                   # Array
    10: ("access", "one_term", "one_term"),             # Map
    11: ("access", "one_term"),                         # Set
    12: ("nominal",),                                   # NativeObject
    13: ("nominal",),                                   # Struct
    14: ("nominal",),                                   # Enum
    15: ("nominal",),                                   # Trait
    16: ("one_number",),                                # Host
    17: ("one_number", "one_number"),                   # Generic
    18: ("one_term", "nominal", "one_number", "terms"),  # Projection
    19: ("one_number",),                                # SelfType
}
NOMINAL = ("one_number", "terms", "members")


class Refused(Exception):
    """The first fault met; its argument is the refusal."""


def number_bytes(value):
    """The shortest form of a number."""
    out = bytearray()
    while value >= 128:
        out.append(value % 128 + 128)
        value //= 128
    out.append(value)
    return bytes(out)


def written(tree):
    """The bytes of a term or of a bare nominal.

    Accesses, codes and range kinds are below 128, so their byte is also
    their form as a number.
    """
    tag, parts = tree
    out = bytearray() if tag is None else bytearray([tag])
    for part in parts:
        out += number_bytes(part) if isinstance(part, int) else written(part)
    return bytes(out)


class Reader:
    """Reads bytes from left to right. Every fault raises Refused."""

    MOST = 4294967295
    LEVELS = 200
    NODES = 2048
    INPUT = 32768
    OUTPUT = 65536
    ACCESSES = 2
    RANGE_KINDS = 4
    CODES = 32
    FIELDS = FIELDS

    def __init__(self, data):
        self.data = data
        self.at = 0
        self.issued = 0

    # Bytes and numbers

    def byte(self):
        if self.at == len(self.data):
            raise Refused(1)
        self.at += 1
        return self.data[self.at - 1]

    def listed(self, how_many):
        """A byte below how_many."""
        value = self.byte()
        if value >= how_many:
            raise Refused(2)
        return value

    def number(self):
        value, weight = 0, 1
        while True:
            byte = self.byte()
            value += byte % 128 * weight
            # If more groups follow, the last of them is at least 1.
            least = value + 128 * weight if byte >= 128 else value
            if least > self.MOST:
                raise Refused(3)
            if byte < 128:
                if byte == 0 and weight > 1:
                    raise Refused(3)
                return value
            weight *= 128

    # Fields: each gives the list of its parts. The level is that of the
    # terms in the field.

    def row(self, names, level):
        parts = []
        for name in names:
            parts += getattr(self, name)(level)
        return parts

    def access(self, level):
        return [self.listed(self.ACCESSES)]

    def range_kind(self, level):
        return [self.listed(self.RANGE_KINDS)]

    def code(self, level):
        return [self.listed(self.CODES)]

    def one_number(self, level):
        return [self.number()]

    def inference_id(self, level):
        value = self.number()
        if value >= self.issued:
            raise Refused(6)
        return [value]

    def one_term(self, level):
        return [self.term(level)]

    def terms(self, level):
        parts = [self.number()]
        for _ in range(parts[0]):
            parts.append(self.term(level))
        return parts

    def members(self, level):
        parts = [self.number()]
        last = -1
        for _ in range(parts[0]):
            member = self.number()
            if member <= last:
                raise Refused(5)
            last = member
            parts.append(member)
            parts.append(self.term(level))
        return parts

    def nominal(self, level):
        return self.row(NOMINAL, level)

    # Terms

    def term(self, level):
        if level > self.LEVELS:
            raise Refused(4)
        tag = self.byte()
        if tag not in self.FIELDS:
            raise Refused(2)
        return tag, self.row(self.FIELDS[tag], level + 1)

    def bare_nominal(self):
        return None, self.nominal(1)

    def nodes(self, tree):
        tag, parts = tree
        inside = sum(self.nodes(part) for part in parts if not isinstance(part, int))
        return inside if tag is None else inside + 1

    def tokens(self, tree):
        tag, parts = tree
        if tag == 1:
            return 1
        return 1 + sum(1 if isinstance(part, int) else self.tokens(part) for part in parts)

    # Frames

    def used_up(self):
        if self.at < len(self.data):
            raise Refused(1)

    def frame(self):
        """The value that follows outcome 0."""
        kind = self.byte()
        if kind > 2:
            raise Refused(2)
        if kind == 2:
            value = self.number()
            self.used_up()
            return number_bytes(value)
        self.issued = self.number()
        tree = self.term(1) if kind == 0 else self.bare_nominal()
        return self.value_of(tree)

    def value_of(self, tree):
        self.used_up()
        nodes = self.nodes(tree)
        if nodes > self.NODES:
            raise Refused(7)
        return number_bytes(nodes) + number_bytes(self.tokens(tree)) + written(tree)


def answer(frame, reader=Reader):
    try:
        value = b"\x00" + reader(frame).frame()
    except Refused as refusal:
        value = bytes(refusal.args)
    return number_bytes(len(value)) + value


def framed(frame):
    """A frame with its length before it."""
    return number_bytes(len(frame)) + frame


def split(data, reader=Reader):
    """The frames of a run of them, up to the first length that is faulty or beyond the end, and what stands from there on."""
    lengths, frames = reader(data), []
    while lengths.at < len(data):
        start = lengths.at
        try:
            length = lengths.number()
        except Refused:
            return frames, data[start:]
        if length > len(data) - lengths.at:
            return frames, data[start:]
        frames.append(data[lengths.at:lengths.at + length])
        lengths.at += length
    return frames, b""


def answered(frames, reply_to, room):
    """Pairs of a frame and its reply, up to the first reply that does not fit whole."""
    pairs = []
    for frame in frames:
        reply = reply_to(frame)
        room -= len(reply)
        if room < 0:
            break
        pairs.append((frame, reply))
    return pairs


def answers(data, reader=Reader):
    """The answered frames of an input: pairs (frame, answer)."""
    return answered(split(data[:reader.INPUT], reader)[0], lambda frame: answer(frame, reader), reader.OUTPUT)


def run(data, reader=Reader):
    return b"".join(reply for _, reply in answers(data, reader))


if __name__ == "__main__":
    sys.stdout.buffer.write(run(sys.stdin.buffer.read()))
