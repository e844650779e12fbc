"""Sheets for tests/judge.py, as rows: family, room, words of the four areas, fill, sheet.

  fixed()              the sheets and runs of sheet_cases.py, the orders of orders_cases.py, a lattice of 100,000 cells, and the
                       limits of a run: sheets and outputs of 16,777,216 bytes, one less and one more, filled to the last byte;
                       areas one word short, each in turn
  short()              every sheet of up to two bytes; every order of up to three bytes, in a fresh session and in one with
                       variables; every order of four and five bytes below 21
  at_random(N, S)      the families JUDGED of sheet_generate.py, with areas and fills at random; behind each short sheet copies of it
                       with a byte or two changed, most of them to small numbers, which are tags, codes, ids and counts
"""

import random

import orders_cases
import sheet_cases
import sheet_generate
from orders_reference import BUILTIN, INFERENCE, TUPLE, framed, number_bytes, written

LEAST = 16384
MOST_BYTES = 16777216
LENGTH = ROOM = sheet_generate.LENGTH
AREAS = (LEAST,) * 4
NAMES = [family.__name__ for family, _ in sheet_generate.JUDGED] + ["copies", "fixed", "short_sheets", "short_orders", "small_orders"]
COPIES = 2
COPIED = 600                # bytes
VAR = b"\x01\x00"
I8 = b"\x04\x00"


# Fixed sheets

def areas():
    """Areas one word short, each in turn; longer ones; none."""
    for at in range(4):
        for words in (LEAST - 1, 0, LEAST + 1, 65536, 100001):
            yield tuple(words if at == place else LEAST for place in range(4))
    yield (0,) * 4
    yield (LEAST - 1,) * 4
    yield (LEAST, LEAST + 1, LEAST + 2, LEAST + 3)


def filled_sheet(size):
    """A sheet of just so many bytes: an order 16 with millions of parameters, which have no nodes, and small orders."""
    count = (size - 40) // 2
    sheet = framed(b"\x10" + number_bytes(count) + bytes(2 * count) + I8)
    left = size - len(sheet)
    odd = framed(b"\x08\x00") if left % 2 else b""
    return sheet + framed(b"\x08") * ((left - len(odd)) // 2) + odd


def filled_output(size):
    """Orders whose answers have just so many bytes in all; the session has a variable that stands for a large Tuple."""
    sheet = framed(b"\x00\x00\x00") + framed(b"\x04\x09" + VAR + written((TUPLE, ((BUILTIN, 0),) * 1000)))
    many = 60
    wide = framed(b"\x05" + written((TUPLE, ((INFERENCE, 0),) * many)))
    # Outcome, tag and count, and the variables as Tuples of 2,000 bytes with tag and count; before them the length.
    answer = 3 + many * 2003
    answer += len(number_bytes(answer))
    left = size - 4 - 3
    sheet += wide * (left // answer - 1)
    left -= (left // answer - 1) * answer
    for order in sheet_generate.filler(left):
        sheet += framed(order)
    return sheet


def limits():
    """Sheets and outputs about 16,777,216 bytes."""
    two = bytes.fromhex(sheet_cases.TWO)
    for more in (-1, 0, 1):
        yield MOST_BYTES, AREAS, filled_sheet(MOST_BYTES + more)
        yield MOST_BYTES + more, AREAS, two
        yield MOST_BYTES + more, AREAS, filled_output(MOST_BYTES)
        yield MOST_BYTES, AREAS, filled_output(MOST_BYTES + more)
    # Orders of no listed kind, 120 bytes each, and the revision.
    refused = framed(b"\x15" + bytes(118)) * (MOST_BYTES // 120)
    yield MOST_BYTES, (20000,) * 4, refused + framed(b"\x08") * ((MOST_BYTES - len(refused)) // 2)
    yield MOST_BYTES + 1, (LEAST - 1,) * 4, bytes(MOST_BYTES + 1)
    yield 0, AREAS, bytes(MOST_BYTES)


CELLS = 100000


def lattices():
    """The first cell's pair binds ?0. Each other cell has a pair that binds nothing: the same one, one that clashes, one that is cancelled."""
    site, other, first, clashing, cancelled, revision = (framed(bytes.fromhex(text)) for text in (
        "00 07 00", "00 08 00", "04 09 09 01 00 09 05 02 01 01 04 02", "04 09 01 01 09 01 00", "04 01 09 01 00 09 05 02 01 01 04 03", "08"))
    # The answers have three bytes for each cell, and those of the variables and the revision: with this room, and one byte less.
    exact = 3 * CELLS + 4 + 4 + 3
    for room, pair in ((MOST_BYTES, first), (MOST_BYTES, clashing), (MOST_BYTES, cancelled), (exact, first), (exact - 1, first)):
        yield room, site + other + first + pair * (CELLS - 1) + revision


def fixed():
    for at, (_, room, sheet, _) in enumerate(sheet_cases.SHEETS):
        yield "fixed", room, AREAS, (0xffffffff, 0, 0xa5a5a5a5)[at % 3], sheet
    for _, sheet, room, words, _ in sheet_cases.RUNS:
        yield "fixed", room, (words,) * 4, 0x01020304, sheet
    for _, order, _ in orders_cases.CASES + orders_cases.MORE:
        yield "fixed", ROOM, AREAS, 0x80808080, framed(order)
    for words in areas():
        for sheet in (b"", bytes.fromhex(sheet_cases.TWO), b"\x80\x00"):
            yield "fixed", 100, words, 0xdeadbeef, sheet
    for room, sheet in lattices():
        yield "fixed", room, AREAS, 0xfefefefe, sheet
    for room, words, sheet in limits():
        yield "fixed", room, words, 0x5e5e5e5e, sheet


# Short ones

# Three variables: the first stands for Array(?1), the third is requested.
BEFORE = b"".join(framed(bytes.fromhex(text)) for text in ("00 00 00", "00 01 00", "01 00 02", "04 09 01 00 09 01 01"))


def run_of(head, tails):
    """An order for each tail, framed."""
    return b"".join(framed(head + tail) for tail in tails)


def ones(limit):
    return [bytes([one]) for one in range(limit)]


def short():
    every, small = ones(256), ones(21)
    for sheet in [b""] + every + [one + two for one in every for two in every]:
        yield "short_sheets", 40, AREAS, 0x77777777, sheet
    for before in (b"", BEFORE):
        yield "short_orders", ROOM, AREAS, 0, before + run_of(b"", [b""] + every)
        for one in every:
            yield "short_orders", ROOM, AREAS, 1, before + run_of(one, every)
            for two in every:
                yield "short_orders", ROOM, AREAS, 2, before + run_of(one + two, every)
    tails = small + [one + two for one in small for two in small]
    for kind in small:
        for two in small:
            for three in small:
                yield "small_orders", ROOM, AREAS, 3, BEFORE + run_of(kind + two + three, tails)


# Random ones

def random_areas(rng):
    pick = rng.random()
    if pick < 0.85:
        return AREAS
    if pick < 0.99:
        return tuple(rng.choice((LEAST, LEAST, LEAST + 1, LEAST + 17, 20000)) for _ in range(4))
    return tuple(rng.choice((LEAST, LEAST, LEAST - 1, 0, 5)) for _ in range(4))


def copy(rng, sheet):
    """The sheet with a byte or two changed."""
    data = bytearray(sheet)
    for _ in range(rng.choice((1, 1, 2))):
        at = rng.randrange(len(data))
        data[at] = rng.randrange(21) if rng.random() < 0.8 else (data[at] + rng.choice((1, 127, 128, 255))) % 256
    return bytes(data)


def at_random(how_many, seed):
    rng = random.Random(seed)
    made = 0
    for family, room, sheet in sheet_generate.sheets(how_many, seed, sheet_generate.JUDGED, (0,), (0,)):
        copies = COPIES if 0 < len(sheet) <= COPIED else 0
        for name, data in [(family, sheet)] + [("copies", copy(rng, sheet)) for _ in range(copies)]:
            if made == how_many:
                return
            made += 1
            yield name, room, random_areas(rng), rng.getrandbits(32), data
