#!/usr/bin/env python3
"""Fixed cases for the program that reads terms and writes them back.

  python3 tests/terms_cases.py write CRATEDIR   write CRATEDIR/stdin and CRATEDIR/stdout
  python3 tests/terms_cases.py check CRATEDIR   whether they are what would be written
  python3 tests/terms_cases.py list             print every case with its answer
  python3 tests/terms_cases.py slips            show for each slip the first case that finds it

Every case states its outcome by hand: a refusal, or the nodes and tokens.
The script stops where the reference answers anything else.

CASES are frames: they go into one input. INPUTS are whole inputs, for what
one input cannot show: how a run of frames ends. tests/terms_compare.py runs
them too.

Bytes are hexadecimal. Tags: 00 Reference, 01 Inference, 02 Unknown, 03 Error,
04 Builtin, 05 Tuple, 06 Function, 07 Iter, 08 Range, 09 Array, 0a Map, 0b Set,
0c NativeObject, 0d Struct, 0e Enum, 0f Trait, 10 Host, 11 Generic,
12 Projection, 13 SelfType.
"""

import sys

import terms_reference as reference
from cases import check_slips, check_stored, run_cases, shortened, store
from terms_slips import SLIPS

MOST = 4294967295
CASES = []   # (comment, frame, outcome)
INPUTS = []  # (comment, input)


def ok(nodes, tokens):
    return ("ok", nodes, tokens)


def frame(comment, outcome, text):
    CASES.append((comment, bytes.fromhex(text), outcome))


def issued_hex(issued):
    return reference.number_bytes(issued).hex()


def term(comment, outcome, text, issued=0):
    frame(comment, outcome, "00" + issued_hex(issued) + text)


def bare(comment, outcome, text, issued=0):
    frame(comment, outcome, "01" + issued_hex(issued) + text)


def number(comment, outcome, text):
    frame(comment, "number" if outcome == 0 else outcome, "02" + text)


# Every place of a term inside a term, {} standing for the inner term.
PLACES = [
    ("Reference, target", "00 01 {}"),
    ("Tuple, first of two", "05 02 {} 02"),
    ("Tuple, last of two", "05 02 02 {}"),
    ("Function, parameter", "06 01 {} 02"),
    ("Function, result after a parameter", "06 01 02 {}"),
    ("Function, result alone", "06 00 {}"),
    ("Iter", "07 {}"),
    ("Range", "08 02 {}"),
    ("Array", "09 {}"),
    ("Map, key", "0a 00 {} 02"),
    ("Map, value", "0a 00 02 {}"),
    ("Set", "0b 01 {}"),
    ("NativeObject, argument", "0c 00 01 {} 00"),
    ("NativeObject, member", "0c 00 00 01 00 {}"),
    ("Struct, argument", "0d 00 01 {} 00"),
    ("Struct, member", "0d 00 00 01 00 {}"),
    ("Enum, argument", "0e 00 01 {} 00"),
    ("Enum, member", "0e 00 00 01 00 {}"),
    ("Trait, argument", "0f 00 01 {} 00"),
    ("Trait, member", "0f 00 00 01 00 {}"),
    ("Projection, receiver", "12 {} 00 00 00 00 00"),
    ("Projection, interface argument", "12 02 00 01 {} 00 00 00"),
    ("Projection, interface member", "12 02 00 00 01 00 {} 00 00"),
    ("Projection, argument", "12 02 00 00 00 00 01 {}"),
]
BARE_PLACES = [
    ("bare nominal, argument", "00 01 {} 00"),
    ("bare nominal, member", "00 00 01 00 {}"),
]

# Every number of the byte form, {} standing for it. The last entry says
# whether it is a count.
NUMBERS = [
    ("Inference, id", "01 {}", False),
    ("Tuple, count", "05 {}", True),
    ("Function, count", "06 {}", True),
    ("Host", "10 {}", False),
    ("Generic, owner", "11 {} 00", False),
    ("Generic, position", "11 00 {}", False),
    ("SelfType", "13 {}", False),
    ("Projection, declaration", "12 02 {} 00 00 00 00", False),
    ("Projection, interface argument count", "12 02 00 {}", True),
    ("Projection, interface member count", "12 02 00 00 {}", True),
    ("Projection, interface member", "12 02 00 00 01 {} 02 00 00", False),
    ("Projection, member", "12 02 00 00 00 {} 00", False),
    ("Projection, argument count", "12 02 00 00 00 00 {}", True),
]
for tag, name in ((12, "NativeObject"), (13, "Struct"), (14, "Enum"), (15, "Trait")):
    NUMBERS += [
        (name + ", declaration", "%02x {} 00 00" % tag, False),
        (name + ", argument count", "%02x 00 {}" % tag, True),
        (name + ", member count", "%02x 00 00 {}" % tag, True),
        (name + ", member", "%02x 00 00 01 {} 02" % tag, False),
    ]
BARE_NUMBERS = [
    ("bare nominal, declaration", "{} 00 00", False),
    ("bare nominal, argument count", "00 {}", True),
    ("bare nominal, member count", "00 00 {}", True),
    ("bare nominal, member", "00 00 01 {} 02", False),
]

# One sample of each tag, with numbers of two bytes where there are numbers.
SAMPLES = [
    ("Reference", "00 01 02"),
    ("Inference", "01 80 01"),
    ("Unknown", "02"),
    ("Error", "03"),
    ("Builtin", "04 1f"),
    ("Tuple", "05 02 03 04 02"),
    ("Function", "06 02 02 09 03 04 0a"),
    ("Iter", "07 04 00"),
    ("Range", "08 03 04 02"),
    ("Array", "09 04 09"),
    ("Map", "0a 01 04 0b 03"),
    ("Set", "0b 00 04 0c"),
    ("NativeObject", "0c 81 01 01 02 01 80 02 03"),
    ("Struct", "0d 81 01 01 02 01 80 02 03"),
    ("Enum", "0e 81 01 01 02 01 80 02 03"),
    ("Trait", "0f 81 01 01 02 01 80 02 03"),
    ("Host", "10 80 01"),
    ("Generic", "11 80 01 81 01"),
    ("Projection", "12 02 82 01 01 03 01 83 01 02 84 01 01 04 00"),
    ("SelfType", "13 80 01"),
]
BARE_SAMPLE = "81 01 01 02 02 80 02 03 81 02 04 01"

LARGEST = "ff ff ff ff 0f"


def numbers_alone():
    number("marked: 127", 0, "7f")
    number("marked: 128", 0, "80 01")
    number("marked: final zero group", 3, "80 00")
    number("marked: 4294967295", 0, LARGEST)
    number("marked: 4294967296", 3, "80 80 80 80 10")

    number("0", 0, "00")
    number("1", 0, "01")
    number("16383, the largest of two bytes", 0, "ff 7f")
    number("16384, the least of three bytes", 0, "80 80 01")
    number("2097151, the largest of three bytes", 0, "ff ff 7f")
    number("2097152, the least of four bytes", 0, "80 80 80 01")
    number("268435455, the largest of four bytes", 0, "ff ff ff 7f")
    number("268435456, the least of five bytes", 0, "80 80 80 80 01")
    number("4294967294", 0, "fe ff ff ff 0f")
    number("2147483648", 0, "80 80 80 80 08")

    number("127 with a final zero group", 3, "ff 00")
    number("final zero group in the third byte", 3, "80 80 00")
    number("final zero group in the third byte, 1 before it", 3, "80 81 00")
    number("final zero group in the fourth byte", 3, "80 80 80 00")
    number("final zero group in the fifth byte", 3, "80 80 80 80 00")
    number("final zero group in the fifth byte, all ones before it", 3, "ff ff ff ff 00")

    number("fifth byte 10, all ones before it", 3, "ff ff ff ff 10")
    number("fifth byte 11", 3, "80 80 80 80 11")
    number("fifth byte 1f", 3, "ff ff ff ff 1f")
    number("fifth byte 40", 3, "80 80 80 80 40")
    number("fifth byte 7f", 3, "ff ff ff ff 7f")
    number("fifth byte 80, nothing after it: refused at the fifth byte", 3, "80 80 80 80 80")
    number("fifth byte 8f, nothing after it", 3, "ff ff ff ff 8f")
    number("fifth byte ff, nothing after it", 3, "ff ff ff ff ff")
    number("a number of six bytes", 3, "80 80 80 80 80 01")
    number("six bytes with a final zero group", 3, "80 80 80 80 80 00")
    number("a number of ten bytes", 3, "ff ff ff ff ff ff ff ff ff 01")

    number("no byte of the number", 1, "")
    number("ends after one byte", 1, "80")
    number("ends after one byte, all ones", 1, "ff")
    number("ends after two bytes", 1, "80 80")
    number("ends after three bytes", 1, "80 80 80")
    number("ends after four bytes", 1, "80 80 80 80")
    number("ends after four bytes, all ones", 1, "ff ff ff ff")

    number("a byte left after 0", 1, "00 00")
    number("a byte left after 127", 1, "7f 80")
    number("a byte left after two bytes", 1, "80 01 00")
    number("a byte left after 4294967295", 1, LARGEST + "00")
    number("refusal 3, then a byte left", 3, "80 00 00")
    number("too large, then a byte left", 3, "80 80 80 80 10 00")


def frames_alone():
    frame("an empty frame", 1, "")
    frame("kind 3", 2, "03")
    frame("kind 3, then what would be a number", 2, "03 00")
    frame("kind 4, then what would be a term", 2, "04 00 02")
    frame("kind 7f", 2, "7f")
    frame("kind ff", 2, "ff")
    frame("kind 80 01: the kind is a byte", 2, "80 01 00 02")
    frame("kind 82 00: the kind is a byte", 2, "82 00 00")
    frame("term: nothing after the kind", 1, "00")
    frame("nominal: nothing after the kind", 1, "01")
    for kind, name, body in (("00", "term", "02"), ("01", "nominal", "00 00 00")):
        result = ok(1, 1) if kind == "00" else ok(0, 4)
        frame(name + ": issued ends early", 1, kind + "80")
        frame(name + ": issued ends after four bytes", 1, kind + "80 80 80 80")
        frame(name + ": nothing after issued", 1, kind + "00")
        frame(name + ": nothing after an issued of two bytes", 1, kind + "80 01")
        frame(name + ": issued not shortest", 3, kind + "80 00" + body)
        frame(name + ": issued too large", 3, kind + "80 80 80 80 10" + body)
        frame(name + ": issued too long", 3, kind + "ff ff ff ff ff" + body)
        frame(name + ": issued 4294967295", result, kind + LARGEST + body)
        frame(name + ": issued 128", result, kind + "80 01" + body)


def kinds_there_and_back():
    # Reference: head, access, target
    term("Reference Shared", ok(2, 3), "00 00 02")
    term("Reference Mutable", ok(2, 3), "00 01 02")
    term("Reference to a Reference to a Builtin", ok(3, 6), "00 01 00 00 04 1f")

    # Inference: one token
    term("Inference 0", ok(1, 1), "01 00", 1)
    term("Inference 127", ok(1, 1), "01 7f", 128)
    term("Inference 128", ok(1, 1), "01 80 01", 129)
    term("Inference 16384", ok(1, 1), "01 80 80 01", MOST)

    term("Unknown", ok(1, 1), "02")
    term("Error", ok(1, 1), "03")
    for code in range(32):
        term("Builtin %d" % code, ok(1, 2), "04 %02x" % code)

    # Tuple: head, count, items
    term("Tuple of none", ok(1, 2), "05 00")
    term("Tuple of one", ok(2, 3), "05 01 02")
    term("Tuple of three", ok(4, 6), "05 03 02 03 04 07")
    term("Tuple of two empty Tuples", ok(3, 6), "05 02 05 00 05 00")
    term("Tuple of 128, the least count of two bytes", ok(129, 130), "05 80 01" + "03" * 128)

    # Function: head, count, parameters, result
    term("Function of none", ok(2, 3), "06 00 02")
    term("Function of one", ok(3, 5), "06 01 02 04 0a")
    term("Function of two", ok(4, 6), "06 02 02 03 04 0a")
    term("Function that gives a Function", ok(3, 5), "06 00 06 00 03")
    term("Function that takes a Function", ok(4, 6), "06 01 06 00 02 03")

    term("Iter of Unknown", ok(2, 2), "07 02")
    term("Iter of Iter of Builtin", ok(3, 4), "07 07 04 02")
    for kind in range(4):
        term("Range of kind %d" % kind, ok(2, 3), "08 %02x 02" % kind)
    term("Range of kind 3 of a Range of kind 1", ok(3, 6), "08 03 08 01 04 02")
    term("Array of Unknown", ok(2, 2), "09 02")
    term("Array of Array of Error", ok(3, 3), "09 09 03")

    # Map: head, access, key, value
    term("Map ReadOnly", ok(3, 4), "0a 00 02 03")
    term("Map Mutable", ok(3, 6), "0a 01 04 0b 04 09")
    term("Map of Maps", ok(7, 10), "0a 01 0a 00 02 03 0a 01 03 02")
    term("Set ReadOnly", ok(2, 3), "0b 00 02")
    term("Set Mutable", ok(2, 4), "0b 01 04 02")

    # Nominals: head, declaration, count, arguments, count, members with terms
    for tag, name in ((12, "NativeObject"), (13, "Struct"), (14, "Enum"), (15, "Trait")):
        t = "%02x" % tag
        term(name + " with nothing", ok(1, 4), t + "00 00 00")
        term(name + " with one argument", ok(2, 5), t + "05 01 02 00")
        term(name + " with one member", ok(2, 6), t + "05 00 01 00 02")
        term(name + " with two of each", ok(5, 11), t + "80 01 02 02 03 02 00 04 1e 80 01 02")
    term("Struct, largest declaration and member", ok(2, 6), "0d" + LARGEST + "00 01" + LARGEST + "02")
    term("Enum, members 127, 128, 4294967294, 4294967295", ok(5, 12),
         "0e 01 00 04 7f 02 80 01 03 fe ff ff ff 0f 02" + LARGEST + "03")
    term("Struct in Enum in Trait, as arguments", ok(3, 12), "0f 01 01 0e 02 01 0d 03 00 00 00 00")
    term("Struct in Enum in NativeObject, as members", ok(3, 14),
         "0c 01 00 01 00 0e 02 00 01 00 0d 03 00 00")
    term("members restart in an inner nominal: 5, inner 5 and 6, outer 6", ok(5, 15),
         "0d 00 00 02 05 0e 00 00 02 05 02 06 02 06 03")

    term("Host 0", ok(1, 2), "10 00")
    term("Host 128", ok(1, 2), "10 80 01")
    term("Host 4294967295", ok(1, 2), "10" + LARGEST)
    term("Generic 0, 0", ok(1, 3), "11 00 00")
    term("Generic 128, 127", ok(1, 3), "11 80 01 7f")
    term("Generic, both largest", ok(1, 3), "11" + LARGEST + LARGEST)

    # Projection: head, receiver, declaration, count, count, member, count
    term("Projection with nothing", ok(2, 7), "12 02 00 00 00 00 00")
    term("Projection with one interface argument", ok(3, 8), "12 02 00 01 03 00 00 00")
    term("Projection with two interface members", ok(4, 11), "12 02 00 00 02 00 02 01 03 00 00")
    term("Projection with two arguments", ok(4, 9), "12 02 00 00 00 00 02 02 03")
    term("Projection with everything, numbers of two bytes", ok(6, 16),
         "12 13 07 80 01 02 02 03 01 81 01 04 05 82 01 01 11 01 02")
    term("Projection of a Projection", ok(3, 13), "12 12 02 01 00 00 02 00 03 00 00 04 00")
    term("Projection in an interface argument", ok(4, 14), "12 02 01 01 12 03 02 00 00 03 00 00 04 00")
    term("Projection in an interface member", ok(4, 15), "12 02 01 00 01 09 12 03 02 00 00 03 00 04 00")
    term("Projection in an argument", ok(4, 14), "12 02 01 00 00 02 01 12 03 03 00 00 04 00")
    term("Projection, largest numbers", ok(3, 9),
         "12 02" + LARGEST + "00 01" + LARGEST + "02" + LARGEST + "00")
    term("members restart after an interface: 5 outside, 5 inside", ok(5, 16),
         "0d 00 00 02 05 12 02 00 00 01 05 02 05 00 06 02")
    term("SelfType 0", ok(1, 2), "13 00")
    term("SelfType 16384", ok(1, 2), "13 80 80 01")
    term("SelfType 4294967295", ok(1, 2), "13" + LARGEST)

    # All twenty kinds in one term
    term("a Tuple with every kind", ok(34, 65),
         "05 14 00 01 02 01 00 02 03 04 0a 05 00 06 00 02 07 02 08 03 02 09 02 0a 01 02 03 0b 00 02"
         "0c 01 00 00 0d 01 01 02 00 0e 01 00 01 05 02 0f 01 01 02 01 05 02"
         "10 07 11 07 00 12 02 01 00 00 02 00 13 07", 1)


def bare_nominals():
    # Head, declaration, count, arguments, count, members with terms
    for arguments in range(4):
        for members in range(4):
            text = "07 %02x" % arguments + "02" * arguments + "%02x" % members
            text += "".join("%02x 03" % (2 * m) for m in range(members))
            bare("bare nominal, %d arguments, %d members" % (arguments, members),
                 ok(arguments + members, 4 + arguments + 2 * members), text)
    bare("bare nominal, Inference inside", ok(2, 7), "80 01 01 01 05 01 80 01 01 04", 6)
    bare("bare nominal, largest numbers", ok(1, 6), LARGEST + "00 01" + LARGEST + "02")
    bare("bare nominal with a Struct in both places", ok(2, 13), "01 01 0d 02 00 00 01 03 0d 04 00 00")
    bare("bare nominal with a Projection", ok(2, 11), "01 01 12 02 02 00 00 03 00 00")
    bare("members restart inside a bare nominal", ok(3, 13), "01 00 02 05 0d 02 00 01 05 02 06 03")


def levels():
    # 196 Arrays, a Tuple at level 197, and under it every place at level 198
    # with a term at level 199, then an Array of Unknown: level 200.
    inner = "".join(text.format("09 02") for _, text in PLACES)
    term("level 199 holds an Array in every place: 200 levels", ok(278, 338),
         "09" * 196 + "05 18" + inner)

    # 198 Arrays, then a place at level 199 with an Array in it at level 200,
    # as are the other terms of the place: only what the Array holds is at
    # level 201. What follows is sound, or a second fault that does not count.
    for name, text in [
        ("Array, the end there: level before early end", "09 09"),
        ("Map value, an unlisted tag there: level before tag", "0a 00 02 09 14"),
        ("Tuple, then an unlisted tag", "05 03 02 09 02 ff"),
        ("Function parameter, then a number not shortest", "06 01 09 02 10 80 00"),
        ("Function result", "06 01 02 09 02"),
        ("Map key, then an id not issued", "0a 00 09 02 01 00"),
        ("Struct argument, then members that fall", "0d 00 01 09 02 02 01 02 00 02"),
        ("Struct member, then a byte left", "0d 00 00 01 00 09 02 02"),
        ("Projection receiver", "12 09 02 00 00 00 00 00"),
        ("Projection interface argument", "12 02 00 01 09 02 00 00 00"),
        ("Projection interface member", "12 02 00 00 01 00 09 02 00 00"),
        ("Projection argument", "12 02 00 00 00 00 01 09 02"),
    ]:
        term("level 201: " + name, 4, "09" * 198 + text)

    # A bare nominal's terms start at level 1.
    bare("bare nominal, argument and member of 200 levels", ok(400, 405),
         "00 01" + "09" * 199 + "02 01 00" + "09" * 199 + "02")
    bare("bare nominal, argument of 201 levels", 4, "00 01" + "09" * 200 + "02 00")
    bare("bare nominal, member of 201 levels", 4, "00 00 01 00" + "09" * 200 + "02")


def early_ends():
    # Every proper beginning of a sample ends early.
    for name, text in SAMPLES:
        whole = bytes.fromhex(text)
        for length in range(1, len(whole)):
            term("%s cut after %d" % (name, length), 1, whole[:length].hex(), 200)
    whole = bytes.fromhex(BARE_SAMPLE)
    for length in range(len(whole)):
        bare("bare nominal cut after %d" % length, 1, whole[:length].hex())


def leftovers():
    for name, text in SAMPLES:
        term(name + ", a byte left", 1, text + "02", 200)
    bare("bare nominal, a byte left", 1, BARE_SAMPLE + "00")
    bare("bare nominal with nothing, a byte left", 1, "00 00 00 00")
    term("two terms", 1, "02 03")


def unlisted():
    for name, text in PLACES:
        term("%s: tag 20" % name, 2, text.format("14"))
    for name, text in PLACES[::5]:
        term("%s: tag ff" % name, 2, text.format("ff"))
    for name, text in BARE_PLACES:
        bare("%s: tag 20" % name, 2, text.format("14"))
        bare("%s: tag 80" % name, 2, text.format("80 02"))
    for tag in (20, 21, 22, 31, 32, 127, 128, 130, 255):
        term("tag %d" % tag, 2, "%02x" % tag)
    term("tag 82 00: the tag is a byte", 2, "82 00")
    for name, head, least in (("Reference, access", "00", 2), ("Builtin, code", "04", 32),
                              ("Range, kind", "08", 4), ("Map, access", "0a", 2), ("Set, access", "0b", 2)):
        for value in (least, least + 1, 128, 255):
            term("%s %d" % (name, value), 2, head + "%02x" % value + "02 02")
        term("%s 80 00: a byte" % name, 2, head + "80 00 02 02")


def faulty_numbers():
    for places, add in ((NUMBERS, term), (BARE_NUMBERS, bare)):
        for name, text, is_count in places:
            add(name + ": not shortest", 3, text.format("80 00"), 200)
            add(name + ": too large", 3, text.format("80 80 80 80 10"), 200)
    for places, add in ((NUMBERS[::6], term), (BARE_NUMBERS, bare)):
        for name, text, is_count in places:
            add(name + ": not shortest, three bytes", 3, text.format("ff ff 00"), 200)
            add(name + ": fifth byte 8f", 3, text.format("ff ff ff ff 8f"), 200)
            add(name + ": ends early inside", 1, text.split("{}")[0] + "ff ff ff", 200)

    # Counts of 4294967295: the first fault after the count is met.
    for places, add in ((NUMBERS, term), (BARE_NUMBERS, bare)):
        for name, text, is_count in places:
            if is_count:
                add(name + " 4294967295, then the end", 1, text.format(LARGEST))
    term("Tuple, count 4294967295, then two terms and an unlisted tag", 2, "05" + LARGEST + "02 03 14")
    term("Tuple, count 4294967295, then an id not issued", 6, "05" + LARGEST + "01 00")
    term("Function, count 4294967295, then a number not shortest", 3, "06" + LARGEST + "10 80 00")
    term("Struct, argument count 4294967295, then members that fall inside", 5,
         "0d 00" + LARGEST + "0d 00 00 02 01 02 00 02")
    term("Struct, member count 4294967295, then an equal member", 5, "0d 00 00" + LARGEST + "00 02 00")
    term("Projection, argument count 4294967295, then a Tuple too long", 1, "12 02 00 00 00 00" + LARGEST + "05 05 02")
    bare("bare nominal, argument count 4294967295, then an unlisted tag", 2, "00" + LARGEST + "14")
    bare("bare nominal, member count 4294967295, then a falling member", 5, "00 00" + LARGEST + "05 02 04")
    term("Tuple, count one more than the terms", 1, "05 03 02 02")
    term("Tuple, count one less than the terms", 1, "05 01 02 02")
    term("Function, count taken for all terms, result missing", 1, "06 02 02 02")


def members():
    places = [("NativeObject", "0c 00 00 {}"), ("Struct", "0d 00 00 {}"), ("Enum", "0e 00 00 {}"),
              ("Trait", "0f 00 00 {}"), ("Projection", "12 02 00 00 {} 00 00")]
    for name, text in places:
        term(name + ": second member equal", 5, text.format("02 07 02 07 02"))
        term(name + ": second member falls", 5, text.format("02 07 02 06 02"))
    bare("bare nominal: second member equal", 5, "00 00 02 07 02 07 02")
    bare("bare nominal: second member falls", 5, "00 00 02 07 02 06 02")
    bare("bare nominal: 0 twice", 5, "00 00 02 00 02 00 02")
    bare("bare nominal: 4294967295 twice", 5, "00 00 02" + (LARGEST + "02") * 2)
    bare("bare nominal: 4294967295, then 0", 5, "00 00 02" + LARGEST + "02 00 02")
    bare("bare nominal: third member equals the second", 5, "00 00 03 01 02 05 02 05 02")
    bare("bare nominal: third member above the first, below the second", 5, "00 00 03 01 02 05 02 04 02")
    bare("bare nominal: 128, then 127: compared as numbers", 5, "00 00 02 80 01 02 7f 02")
    bare("bare nominal: 127, then 128", ok(2, 8), "00 00 02 7f 02 80 01 02")
    bare("bare nominal: 256, then 255", 5, "00 00 02 80 02 02 ff 01 02")
    term("an inner nominal's members fall", 5, "0d 00 00 01 05 0d 00 00 02 05 02 04 02")
    term("the outer member falls after a sound inner nominal", 5, "0d 00 00 02 05 0d 00 00 01 09 02 05 02")
    term("the member alone, at the end of the bytes", 5, "0d 00 00 02 07 02 07")
    term("an equal member cut inside its number is an early end", 1, "0d 00 00 02 80 01 02 80")


def ids():
    term("issued 0, id 0", 6, "01 00")
    term("issued 1, id 1", 6, "01 01", 1)
    term("issued 2, id 1", ok(1, 1), "01 01", 2)
    term("issued 2, id 2", 6, "01 02", 2)
    term("issued 128, id 128", 6, "01 80 01", 128)
    term("issued 128, id 127", ok(1, 1), "01 7f", 128)
    term("issued 4294967295, id 4294967294", ok(1, 1), "01 fe ff ff ff 0f", MOST)
    term("issued 4294967295, id 4294967295", 6, "01" + LARGEST, MOST)
    term("issued 0, id 4294967295", 6, "01" + LARGEST)
    for name, text in PLACES:
        term(name + ": id not issued", 6, text.format("01 03"), 3)
    for name, text in BARE_PLACES:
        bare(name + ": id not issued", 6, text.format("01 03"), 3)
        bare(name + ": id issued", ok(1, 5 if "argument" in name else 6), text.format("01 02"), 3)


def two_faults():
    # Two items of a Tuple, each with one fault. The first item decides.
    faults = {
        2: "14",                          # unlisted tag
        3: "10 80 00",                    # number not shortest
        5: "0d 00 00 02 01 02 01 02",     # members equal
        6: "01 00",                       # id not issued
    }
    for first, one in faults.items():
        for then, other in faults.items():
            if first != then:
                term("%d, then %d" % (first, then), first, "05 02" + one + other)
        term("%d, then early end" % first, first, "05 03" + one + "02")
        term("%d, then a byte left" % first, first, "05 01" + one + "02")
    # The other order is in levels().
    for first, one in faults.items():
        term("%d, then level 201" % first, first, "05 02" + one + "09" * 199 + "02")

    # Two faults in one place or one node
    term("unlisted access, then an unlisted tag", 2, "00 02 14")
    term("unlisted access, then an id not issued", 2, "0b 02 01 00")
    term("Range kind unlisted, then the end", 2, "08 04")
    term("id too large as a number and not issued", 3, "01 80 80 80 80 10")
    term("id not shortest and not issued", 3, "01 80 00")
    term("id not issued, then a byte left", 6, "01 00 00")
    term("equal member, then an unlisted tag as its term", 5, "0d 00 00 02 01 02 01 14")
    term("equal member, then an id not issued as its term", 5, "0d 00 00 02 01 02 01 01 00")
    term("equal member, then a third member not shortest", 5, "0d 00 00 03 01 02 01 02 80 00")
    term("a member not shortest that would also be equal", 3, "0d 00 00 02 00 02 80 00 02")
    term("the first member's term faulty, then an equal member", 2, "0d 00 00 02 01 14 01 02")
    term("interface members fall, then the member not shortest", 5, "12 02 00 00 02 02 02 01 02 80 00 00")
    term("receiver faulty, then the interface", 6, "12 01 00 80 00 00 00 00 00")
    term("interface argument faulty, then the projection's argument", 2, "12 02 00 01 14 00 00 01 01 00")
    term("projection's member too large, then an unlisted tag", 3, "12 02 00 00 00 80 80 80 80 10 01 14")
    term("Function: parameter faulty, then the result", 3, "06 01 10 80 00 14")
    term("Map: key faulty, then the value", 6, "0a 00 01 00 14")
    term("Map: value faulty after a sound key", 2, "0a 00 02 14")
    bare("bare nominal: argument faulty, then members fall", 6, "00 01 01 00 02 01 02 00 02")
    bare("bare nominal: declaration not shortest, then an unlisted tag", 3, "80 00 01 14 00")
    frame("issued not shortest, then an unlisted tag", 3, "00 80 00 14")
    frame("unlisted kind, then issued not shortest", 2, "03 80 00")
    frame("unlisted kind, then nothing of a term", 2, "05 80")


def many_nodes():
    term("2,048 nodes", ok(2048, 2049), "05 ff 0f" + "02" * 2047)
    term("2,049 nodes", 7, "05 80 10" + "02" * 2048)
    bare("2,048 nodes", ok(2048, 2054), "00 80 08" + "02" * 1024 + "01 00 05 ff 07" + "02" * 1023)
    bare("2,049 nodes", 7, "00 81 10" + "03" * 2049 + "00")
    # Every fault met in reading comes before refusal 7, wherever it stands.
    many = "02" * 2048
    term("2,049 nodes, then a byte left", 1, "05 80 10" + many + "02")
    term("2,049 nodes, then early end", 1, "05 81 10" + many)
    term("2,049 nodes, then an unlisted tag", 2, "05 81 10" + many + "14")
    term("2,049 nodes, then a number not shortest", 3, "05 81 10" + many + "13 80 00")
    term("2,049 nodes, then level 201", 4, "05 ba 0e" + "02" * 1849 + "09" * 199 + "02")
    term("2,049 nodes, then members that fall", 5, "05 81 10" + many + "0f 00 00 02 01 02 00 02")
    bare("2,049 nodes, then an id not issued", 6, "00 82 10" + "02" * 2049 + "01 03 00", 3)


def projections_in_receivers(levels):
    """A term of so many levels, of Projections whose receivers are Projections."""
    return "12" * (levels - 1) + "02" + "01 00 00 02 00" * (levels - 1)


def inputs():
    def add(comment, *parts):
        INPUTS.append((comment, b"".join(bytes.fromhex(p) if isinstance(p, str) else p for p in parts)))

    sound = "03 00 00 02"
    add("no byte")
    add("one frame", sound)
    add("a refused frame, then a sound one", "01 09", sound)
    add("an empty frame, then a sound one", "00", sound)
    add("a length not shortest at the start", "80 00", sound)
    add("a length not shortest, for a sound frame", "83 00 00 00 02", sound)
    add("a length not shortest after a frame", sound, "80 00", sound)
    add("a length too large", sound, "80 80 80 80 10", sound)
    add("a length too long", sound, "80 80 80 80 80 01", sound)
    add("a length of 4294967295", sound, LARGEST, sound)
    add("a length that exceeds 2 to the 32 when added to its position", sound, "fb ff ff ff 0f", sound)
    add("a length cut after one byte", sound, "80")
    add("a length cut after four bytes", sound, "80 80 80 80")
    add("a length one beyond the input", sound, "04 00 00 02")
    add("a length with nothing after it", sound, "01")
    add("a frame that ends with the input after a length of two bytes", "80 01 02", bytes(127))
    add("a frame one byte short after a length of two bytes", "80 01 02", bytes(126))
    add("a frame of 127 bytes, its answer's length of two bytes", "7f 00 00 05 7b", b"\x02" * 123)
    add("an answer's length of one byte, 127", "7e 00 00 05 7a", b"\x02" * 122)

    # 32,768 bytes are read, and later ones not.
    add("32,768 empty frames: 65,536 bytes of answers", bytes(32768))
    add("32,767 empty frames", bytes(32767))
    add("32,769 empty frames: the last is unread", bytes(32769))
    add("a frame that ends at byte 32,768", bytes(32764), sound)
    add("a frame that ends at byte 32,769: beyond the input", bytes(32765), sound)
    add("a frame that ends at byte 32,768, then bytes unread", bytes(32764), sound, sound)
    add("a length that goes on in byte 32,769", bytes(32767), "80 01", bytes(128))
    add("a length of two bytes, its second the byte 32,768", bytes(32766), "80 01", bytes(128))
    add("a length of 0 as byte 32,768, then bytes unread", bytes(32768), sound)

    # The largest frames
    add("one frame for the whole input, too many nodes", "fd ff 01 00 00 05 f7 ff 01", b"\x02" * 32759)
    add("one frame one byte beyond the input", "fe ff 01 00 00 05 f8 ff 01", b"\x02" * 32759)
    members_16 = b"".join(reference.number_bytes(MOST - 2046 + m) + bytes.fromhex("11" + LARGEST * 2)
                          for m in range(2047))
    add("a sound frame of 32,765 bytes: 2,047 members, all numbers of five bytes",
        reference.framed(bytes.fromhex("00 80 80 01 0d" + LARGEST + "00 ff 0f") + members_16))
    many = "05 0b" + "".join(projections_in_receivers(199) for _ in range(10)) + projections_in_receivers(57)
    add("Projections in receivers, 6 tokens a node", reference.framed(bytes.fromhex("00 00" + many)))
    many = "01 09" + "".join(projections_in_receivers(200) for _ in range(9)) + "02"
    many += "05" + projections_in_receivers(200) + "06" + projections_in_receivers(48)
    add("a bare nominal with Projections in receivers", reference.framed(bytes.fromhex("01 00" + many)))
    many += "00"
    add("the same with a byte left", reference.framed(bytes.fromhex("01 00" + many)))


for section in (numbers_alone, frames_alone, kinds_there_and_back, bare_nominals, levels, early_ends, leftovers,
                unlisted, faulty_numbers, members, ids, two_faults, many_nodes, inputs):
    section()


# The input ends with a faulty length; the frame after it gets no answer.
ENDING = bytes.fromhex("80 00") + reference.framed(bytes.fromhex("00 00 02"))


def value_stated(body, outcome):
    """The answer that the case states."""
    if isinstance(outcome, int):
        value = bytes([outcome])
    elif outcome == "number":
        value = b"\x00" + body[1:]
    else:
        # The bytes after issued come back.
        after = 1
        while body[after] >= 128:
            after += 1
        value = b"\x00" + reference.number_bytes(outcome[1]) + reference.number_bytes(outcome[2])
        value += body[after + 1:]
    return reference.number_bytes(len(value)) + value


def case_input():
    """The input with all cases, and its answers as stated by hand."""
    data = b"".join(reference.framed(body) for _, body, _ in CASES) + ENDING
    stated = b"".join(value_stated(body, outcome) for _, body, outcome in CASES)
    for comment, body, outcome in CASES:
        found = reference.answer(body)
        if found != value_stated(body, outcome):
            sys.exit("%s: stated %s, the reference answers %s\nframe %s"
                     % (comment, outcome, found.hex(" ")[:60], body.hex(" ")[:200]))
    if len(data) > reference.Reader.INPUT:
        sys.exit("the cases take %d bytes" % len(data))
    if reference.run(data) != stated:
        sys.exit("the reference does not answer the run as stated")
    return data, stated


def write(directory):
    data, stated = case_input()
    store(directory, data, stated)
    print("%d cases, %d bytes in, %d bytes out" % (len(CASES), len(data), len(stated)))


def check(directory):
    return check_stored(directory, *case_input(), len(CASES))


def listing():
    case_input()
    for comment, body, outcome in CASES:
        print("%s\n    %s\n    %s" % (comment, shortened(body.hex(" ")), shortened(reference.answer(body).hex(" "))))
    print("%d cases" % len(CASES))


def slips():
    data, _ = case_input()

    def finder(reader):
        found = next((comment for comment, body, outcome in CASES
                      if reference.answer(body, reader) != value_stated(body, outcome)), None)
        return found or next(("input: " + comment for comment, content in [("the input with all cases", data)] + INPUTS
                              if reference.run(content, reader) != reference.run(content)), None)
    return check_slips(SLIPS, finder)


if __name__ == "__main__":
    sys.exit(run_cases(__doc__, {"list": listing, "slips": slips}, {"write": write, "check": check}))
