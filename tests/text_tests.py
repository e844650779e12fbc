#!/usr/bin/env python3
"""Tests of the text form of sheets (tools/sheet.py).

  python3 tests/text_tests.py [--program PROGRAM] [--sheets N] [--write]

Round trips: the text of any bytes assembles to the same bytes, and a
transcript is a text whose stated answers are the answers. Sheets and answers
come from sheet_generate.py, sheet_cases.py and sheet_reference.py, and from
damaged and random bytes. Then faults of texts with their line and column,
the command, the examples with their transcripts, and the lines of
docs/TEXT.md. The examples are run by the reference and by the program, or by
the reference alone with --program ''. --write writes the transcripts anew,
with the reference's answers.
"""

import argparse
import glob
import os
import random
import re
import subprocess
import sys
import tempfile

ROOT = os.path.dirname(os.path.dirname(os.path.abspath(__file__)))
sys.path.insert(0, os.path.join(ROOT, "tools"))

import sheet_cases
import sheet_generate
import sheet_reference as reference
import sheet_text
from sheet_reading import answer_text, order_text, split
from sheet_tokens import TextError
from sheet_words import ORDERS, ROOM, framed

COMMAND = [sys.executable, os.path.join(ROOT, "tools", "sheet.py")]
LARGEST = 40000             # longer sheets are left out
LARGE = 16000               # with longer ones, answers and reason are left out
BAR = bytes.fromhex("03 00 07 00 03 00 08 00 0c 04 09 09 01 00 09 05 02 01 01 04 02 07 04 09 01 01 09 01 00 03 05 01 00 01 08")
BAR_ANSWERS = bytes.fromhex("03 00 01 00 03 00 01 01 02 00 01 02 00 00 07 00 05 02 01 01 04 02 02 00 01")
REASONS = {0: sheet_text.RUN_0, 10: sheet_text.RUN_10, 11: sheet_text.RUN_11}


class Tests:
    """Counts what passes; a test that fails says so."""

    def __init__(self, options):
        self.options = options
        self.passed = self.failed = 0

    def check(self, truth, what):
        self.passed += bool(truth)
        self.failed += not truth
        if not truth and self.failed <= 20:
            print("FAILED: " + what)

    def equal(self, found, wanted, what):
        self.check(found == wanted, "%s\n  found  %.300r\n  wanted %.300r" % (what, found, wanted))

    def no_fault(self, text, what):
        """The Script of a text that has no fault."""
        try:
            return sheet_text.assemble(text)
        except TextError as fault:
            self.check(False, what + "\n" + sheet_text.located(fault, "text", text))
            return sheet_text.Script()

    # Round trips

    def round_trip(self, sheet, what):
        text = sheet_text.show(sheet)
        script = self.no_fault(text, what)
        self.equal(script.sheet(), sheet, what + ": the sheet")
        self.equal(sheet_text.show(script.sheet()), text, what + ": the text")
        return script

    def with_answers(self, sheet, run, what):
        script = self.round_trip(sheet, what)
        lines, _ = sheet_text.transcript(script, run.output)
        again = self.no_fault("\n".join(lines), what)
        stated = [entry.stated for entry in again.entries if entry.stated is not None]
        self.equal(b"".join(map(framed, stated)), run.output, what + ": the answers")
        self.equal(sheet_text.transcript(again, run.output), (lines, 0), what + ": the transcript")
        if run.reason in REASONS:
            self.equal(sheet_text.reason_of(sheet, run.output), REASONS[run.reason], what + ": the reason")

    def random_sheets(self):
        for family, room, sheet in sheet_generate.sheets(self.options.sheets, 7):
            self.with_answers(sheet, reference.run(sheet, room), "random sheet, " + family)

    def cases(self):
        for name, _, sheet, run in sheet_cases.SHEETS:
            if len(sheet) + len(run.output) <= LARGE:
                self.with_answers(sheet, run, name)
            elif len(sheet) <= LARGEST:
                self.round_trip(sheet, name)

    def damaged(self):
        rng = random.Random(3)
        for _, _, sheet in sheet_generate.sheets(100, 11):
            if 0 < len(sheet) < 2000:
                changed = bytearray(sheet)
                for _ in range(rng.randrange(1, 6)):
                    changed[rng.randrange(len(changed))] = rng.randrange(256)
                    changed.insert(rng.randrange(len(changed) + 1), rng.randrange(24))
                self.round_trip(bytes(changed[:rng.randrange(len(changed) + 1)]), "damaged sheet")

    def random_bytes(self):
        rng = random.Random(5)
        for _ in range(3000):
            tail = bytes(rng.choice((rng.randrange(256), rng.randrange(24))) for _ in range(rng.randrange(40)))
            order = bytes([rng.randrange(24)]) + bytes(rng.choice((0, 1, 1, rng.randrange(20))) for _ in range(rng.randrange(12)))
            script = self.round_trip(rng.choice((b"", framed(order))) + tail, "random bytes")
            sheet_text.transcript(script, tail[::-1])
            answer_text(rng.choice(list(ORDERS)), tail)
        deep = b"\x09" * 40000
        self.equal(answer_text(5, b"\x00" + deep + b"\x02").count("Array<"), 40000, "a deep answer")
        self.round_trip(framed(b"\x05" + deep), "a deep order")
        self.round_trip(framed(b"\x05" + b"\x09" * 199 + b"\x02"), "200 levels")
        self.check(order_text(b"\x05" + b"\x09" * 199 + b"\x02")[1] is None, "200 levels are read")
        self.check(order_text(b"\x05" + b"\x09" * 200 + b"\x02")[1], "201 levels are not read")

    def bar(self):
        with open(os.path.join(ROOT, "examples", "bar.sheet"), encoding="utf-8") as file:
            script = self.no_fault(file.read(), "bar.sheet")
        self.equal(script.sheet(), BAR, "the bar's orders")
        self.equal(reference.program(BAR), BAR_ANSWERS, "the bar's answers")
        for name, wanted in (("stdin", BAR), ("stdout", BAR_ANSWERS)):
            with open(os.path.join(ROOT, "crates", "checker", name), "rb") as file:
                self.equal(file.read(), wanted, "crates/checker/" + name)
        shown = [answer_text(order[0], answer) for order, answer in zip(split(BAR)[0], split(BAR_ANSWERS)[0])]
        self.equal(shown, ["?0", "?1", "compatible", "incompatible", "(?1, i32)", "1"], "the bar's answers in words")

    def by_hand(self):
        """Text to bytes and bytes to text, both stated by hand."""
        for text, wanted in BYTES:
            self.equal(self.no_fault(text, text).orders()[0].hex(" "), wanted, text)
            self.equal(order_text(bytes.fromhex(wanted)), (text, None), wanted)
        for kind, text, wanted in ANSWERS:
            line = self.no_fault("%s => %s" % (BYTES[[each[1][:2] for each in BYTES].index("%02x" % kind)][0], text), text)
            self.equal(line.entries[0].stated.hex(" "), wanted, text)
            self.equal(answer_text(kind, bytes.fromhex(wanted)), text, wanted)

    def spaces(self):
        """Spaces, tabs, comments, line ends and names change no byte."""
        text = "\t variable   site 7\tslot 0 # x\r\n\r\n#\nvariable site 8 slot 0\n constrain checks 9 :Array < ? 0 >=Array<(?1,i32,)>\n"
        self.equal(self.no_fault(text, "spaces").sheet(), BAR[:21], "spaces")
        text = "name struct S = 13\nname member M = 2\nname generic T = S.1\nname variable in = 4\nresolve (S<T, M = ?in>, struct S)"
        plain = "resolve (struct 13<generic 13.1, 2 = ?4>, struct 13)"
        self.equal(self.no_fault(text, "names").sheet(), self.no_fault(plain, "numbers").sheet(), "names")
        self.equal(self.no_fault("", "no text").sheet(), b"", "no text")
        self.equal(self.no_fault("bytes\nbytes 0C0d  0e", "bytes").sheet(), bytes.fromhex("00 03 0c 0d 0e"), "bytes")

    # Faults

    def faults(self):
        for text, line, column, message in FAULTS:
            try:
                sheet_text.assemble(text)
                self.check(False, "no fault in %r" % text)
            except TextError as fault:
                self.equal((fault.line, fault.column, fault.message), (line, column, message), "the fault of %r" % text[:200])
                shown = sheet_text.located(fault, "f", text).split("\n")
                self.check(len(shown) == 3 and shown[2].endswith("^"), "the mark of %r" % text[:200])

    def changed_texts(self):
        """Texts with changed letters have a fault or none, but raise nothing else."""
        rng = random.Random(9)
        letters = "?<>(),=&{}[]:.#0123456789 \t\x00abcdefghijklmnopqrstuvwxyz_-\u00e9\u0661\n"
        for path in self.examples():
            with open(path, encoding="utf-8") as file:
                source = file.read()
            for _ in range(150):
                text = list(source)
                for _ in range(rng.randrange(1, 4)):
                    at = rng.randrange(len(text))
                    text[at:at + rng.randrange(4)] = rng.choice(letters)
                try:
                    sheet_text.assemble("".join(text))
                except TextError as fault:
                    sheet_text.located(fault, path, "".join(text))
                self.passed += 1

    # Commands

    def command(self, words, stdin=b"", status=0):
        done = subprocess.run(COMMAND + words, input=stdin, stdout=subprocess.PIPE, stderr=subprocess.PIPE, check=False)
        self.equal(done.returncode, status, "the status of %s, which said %s" % (words, done.stderr.decode()[:300]))
        self.check(b"Traceback" not in done.stderr, "a traceback of %s" % words)
        return done.stdout, done.stderr.decode()

    def commands(self):
        with tempfile.TemporaryDirectory() as place:
            def at(name):
                return os.path.join(place, name)

            bar = os.path.join(ROOT, "examples", "bar.sheet")
            self.command(["assemble", bar, "-o", at("sheet")])
            with open(at("sheet"), "rb") as file:
                self.equal(file.read(), BAR, "assemble -o")
            with open(at("answers"), "wb") as file:
                file.write(BAR_ANSWERS)
            self.equal(self.command(["assemble", "--hex", bar])[0].decode(), BAR.hex(" ") + "\n", "assemble --hex")
            shown = self.command(["show", at("sheet")])[0]
            self.equal(shown, self.command(["show", "--hex", "-"], BAR.hex().encode())[0], "show --hex")
            self.equal(self.command(["assemble", "-"], shown)[0], BAR, "assemble -")
            beside = self.command(["show", at("sheet"), "--answers", at("answers")])[0].decode()
            self.check("=> (?1, i32)\n" in beside and "(run 0)" in beside, "show --answers")
            self.command(["show", "-", "--answers", at("answers")], b"", 1)
            self.command(["show", at("sheet"), "--answers", at("sheet")], status=1)
            faulty = self.command(["assemble", "-"], b"revision\nresolve Aray<i32>\n", 1)[1]
            self.equal(faulty, "standard input:2:9: expected a term, found 'Aray', which no line before names (is it 'Array'?)\n"
                       "    resolve Aray<i32>\n            ^\n", "a fault")
            self.check(":1:10: expected UTF-8" in self.command(["assemble", "-"], b"revision \xff", 1)[1], "no UTF-8")
            self.check(":2:3: expected pairs" in self.command(["show", "--hex", "-"], b"03\n  x", 1)[1], "no digits")
            self.command(["assemble", at("none")], status=1)
            self.command(["assemble", place], status=1)
            self.command(["assemble", bar, "-o", at("none/none")], status=1)
            self.check("cd crates/checker && rt run" in self.command(["run", bar, "--program", at("none")], status=1)[1], "no program")

    # Examples and the document

    def examples(self):
        return sorted(glob.glob(os.path.join(ROOT, "examples", "*.sheet")))

    def transcripts(self):
        """The expected transcripts, from the reference's answers."""
        self.check(len(self.examples()) >= 5, "there are examples")
        for path in self.examples():
            with open(path, encoding="utf-8") as file:
                script = self.no_fault(file.read(), path)
            sheet = script.sheet()
            self.round_trip(sheet, path)
            answers = reference.program(sheet)
            lines, wrong = sheet_text.transcript(script, answers)
            lines += sheet_text.summary(script, answers, wrong, ROOM)
            text, out = "\n".join(lines) + "\n", path[:-len("sheet")] + "out"
            if self.options.write:
                with open(out, "w", encoding="utf-8") as file:
                    file.write(text)
            with open(out, encoding="utf-8") as file:
                self.equal(text, file.read(), "the transcript of " + os.path.basename(path))
            self.equal(wrong, 0, "answers not as stated in " + path)
            again = self.no_fault(text, out)
            self.equal(again.sheet(), sheet, out)

    def program(self):
        program = self.options.program
        if not program:
            return
        if not os.path.exists(program):
            self.check(False, "there is no program %s" % program)
            return
        for path in self.examples():
            with open(path[:-len("sheet")] + "out", "rb") as file:
                self.equal(self.command(["run", path, "--program", program])[0], file.read(), "the program's run of " + path)
        shown = self.command(["run", "-", "--program", program], b"revision => 1", 1)[0].decode()
        self.check("revision => 0  ## stated: 1\n" in shown and "1 answer is not as stated" in shown, "a wrong stated answer")
        many = b"revision\n" * 20000
        shown = self.command(["run", "-", "--program", program], many)[0].decode()
        self.check("reads the first 32768 bytes" in shown and "(run 11)" in shown, "a sheet that is too large")
        shown = self.command(["run", "-", "--hex", "--program", program], b"revision")[0].decode()
        self.check("01 08 => 02 00 00\n" in shown, "run --hex")

    def document(self):
        """The lines of docs/TEXT.md: every order and every tag is there, and the stated answers are right."""
        with open(os.path.join(ROOT, "docs", "TEXT.md"), encoding="utf-8") as file:
            document = file.read()
        kinds, tags = set(), set()
        for block in re.findall("```sheet\n(.*?)```", document, re.S):
            script = self.no_fault(block, "docs/TEXT.md")
            self.equal(sheet_text.transcript(script, reference.program(script.sheet()))[1], 0, "answers in docs/TEXT.md: " + block)
            kinds.update(order[0] for order in script.orders() if order)
            tags.update(order[1] for order in script.orders() if order and order[0] == 5)
        self.check(kinds >= set(ORDERS), "orders that docs/TEXT.md lacks: %s" % (set(ORDERS) - kinds))
        self.check(tags >= set(range(20)), "terms that docs/TEXT.md lacks: %s" % (set(range(20)) - tags))


# Orders and their bytes, written by hand from document 01.
BYTES = [
    ("variable site 7 slot 128", "00 07 80 01"),
    ("number site 3 fallback f64", "01 03 09"),
    ("number site 3 fallback i32 from -1 to 200", "15 03 02 01 00 01 00 00 c8 01"),
    ("number site 3 fallback f64 from -0 to 0", "15 03 09 01 00 00 00 00 00"),
    ("number site 0 fallback builtin 31 from 4294967295 to 4294967296", "15 00 1f 00 00 ff ff ff ff 0f 00 01 00"),
    ("number site 0 fallback i8 from 18446744073709551615 to -18446744073709551615",
     "15 00 00 00 ff ff ff ff 0f ff ff ff ff 0f 01 ff ff ff ff 0f ff ff ff ff 0f"),
    ("hole site 300", "02 ac 02"),
    ("defer never ?2", "03 01 02"),
    ("constrain checks 9: ?1 = i8", "04 09 01 01 04 00"),
    ("constrain ?1 = i8", "04 ff ff ff ff 0f 01 01 04 00"),
    ("constrain strictly checks 9: ?1 = Set<i8>", "16 09 01 01 0b 00 04 00"),
    ("constrain strictly MutableSet<?0> = MutableMap<i8, ?1>", "16 ff ff ff ff 0f 0b 01 01 00 0a 01 04 00 01 01"),
    ("resolve &i16", "05 00 00 04 01"),
    ("resolve &mut i32", "05 00 01 04 02"),
    ("resolve (unknown, error, ())", "05 05 03 02 03 05 00"),
    ("resolve (i64, u8, u16, u32, u64, f32, never, builtin 31)", "05 05 08 04 03 04 04 04 05 04 06 04 07 04 08 04 0a 04 1f"),
    ("resolve fn(i8, f64) -> ?0", "05 06 02 04 00 04 09 01 00"),
    ("resolve Iter<Range 3<Array<unknown>>>", "05 07 08 03 09 02"),
    ("resolve Map<i8, MutableMap<i16, i32>>", "05 0a 00 04 00 0a 01 04 01 04 02"),
    ("resolve (Set<error>, MutableSet<error>)", "05 05 02 0b 00 03 0b 01 03"),
    ("resolve native 4<struct 5, enum 6>", "05 0c 04 02 0d 05 00 00 0e 06 00 00 00"),
    ("resolve trait 7<i8, 1 = i16, 2 = i32>", "05 0f 07 01 04 00 02 01 04 01 02 04 02"),
    ("resolve (host 3, generic 8.1, Self 9)", "05 05 03 10 03 11 08 01 13 09"),
    ("resolve <?0 as trait 5<i8, 7 = i16>>::6<u8, u16>", "05 12 01 00 05 01 04 00 01 07 04 01 06 02 04 04 04 05"),
    ("defaults numbers", "06"),
    ("defaults never", "07"),
    ("revision", "08"),
    ("conflicts i8 with i16", "09 04 00 04 01"),
    ("weakens i8 to i16", "0a 04 00 04 01"),
    ("recover i8 from i16", "0b 04 00 04 01"),
    ("instantiate {generic 8.0 = i8, generic 8.1 = i16, Self 5 = i32} in ?0", "0c 02 08 00 04 00 08 01 04 01 01 05 04 02 01 00"),
    ("argument context {} parameters [generic 8.0, generic 8.1] in i8", "0d 00 00 02 08 00 08 01 04 00"),
    ("with Self 5 = i8 in i16", "0e 05 04 00 04 01"),
    ("questions i8", "0f 04 00"),
    ("resolved in [generic 8.0] for i8", "10 01 08 00 04 00"),
    ("satisfies trait 5<6 = i8> required trait 7 receiver i16", "11 05 00 01 06 04 00 07 00 00 04 01"),
    ("family [generic 8.0] value i8 outer {Self 5 = i16} arguments [i32, i64]", "12 01 08 00 04 00 00 01 05 04 01 02 04 02 04 03"),
    ("associated i8 interface trait 5 owner i16", "13 04 00 05 00 00 04 01"),
    ("normalise [<i8 as trait 5>::6<i16> = i32, <u8 as trait 7>::9 = u16] in f32",
     "14 02 05 00 00 04 00 06 01 04 01 04 02 07 00 00 04 04 09 00 04 05 04 08"),
]

# Answers to orders of a kind, and their bytes.
ANSWERS = [
    (0, "?5", "00 01 05"), (3, "done", "00"), (4, "incompatible", "00 00"), (4, "compatible", "00 01"), (4, "cancelled", "00 02"),
    (22, "incompatible", "00 00"), (22, "compatible", "00 01"), (22, "cancelled", "00 02"), (22, "bytes 00 03", "00 03"),
    (22, "refused 6 (a variable that is not issued)", "06"),
    (21, "?5", "00 01 05"), (21, "u8", "00 04 04"), (21, "bytes 00", "00"),
    (21, "refused 13 (a sign over 1, a low bound above the high one, or no integer type that holds both)", "0d"),
    (6, "unchanged", "00 00"), (7, "changed", "00 01"), (8, "300", "00 ac 02"), (9, "no", "00 00"), (10, "yes", "00 01"),
    (15, "is_never, is_concrete", "00 01 00 01 00 00 00 00"), (15, "none", "00 00 00 00 00 00 00 00"),
    (15, "is_integer, is_unresolved, contains_unknown, contains_self_type, contains_projection", "00 00 01 00 01 01 01 01"),
    (16, "yes", "00 01"), (17, "satisfies, satisfies_for", "00 01 01"), (17, "satisfies_for", "00 00 01"),
    (18, "none", "00 00"), (18, "i8", "00 01 04 00"), (20, "error", "00 03"), (20, "refused 77", "4d"),
    (20, "refused 9 (more than 8,192 children met in normalising)", "09"), (6, "bytes 00 02", "00 02"), (5, "bytes", ""),
]

END = "the end of the line"
FAULTS = [
    ("revison", 1, 1, "expected an order, found 'revison' (is it 'revision'?)"),
    ("\n\n  = 3", 3, 3, "expected an order, found '='"),
    ("revision 1", 1, 10, "expected the end of the line or '=>', found '1'"),
    ("revision => 1 2", 1, 15, "expected the end of the line, found '2'"),
    ("revision =>", 1, 12, "expected a number, found " + END),
    ("variable site 7 0", 1, 17, "expected 'slot', found '0'"),
    ("variable site x slot 0", 1, 15, "expected a number, found 'x'"),
    ("variable site 4294967296 slot 0", 1, 15, "expected a number up to 4294967295, found '4294967296'"),
    ("variable site " + "9" * 5000, 1, 15, "expected a number up to 4294967295, found '%s...'" % ("9" * 27)),
    ("number site 1 fallback F64", 1, 24, "expected a builtin type, as i32 or builtin 11, found 'F64'"),
    ("number site 1 fallback builtin 32", 1, 32, "expected a builtin code up to 31, found '32'"),
    ("defaults number", 1, 10, "expected 'numbers' or 'never', found 'number'"),
    ("resolve", 1, 8, "expected a term, found " + END),
    ("resolve # i32", 1, 9, "expected a term, found " + END),
    ("resolve (i32)", 1, 13, "expected ',', found ')' (a tuple of one is written as (i32,))"),
    ("resolve (i32, i8", 1, 17, "expected ')' or ',', found " + END),
    ("resolve Array<i32", 1, 18, "expected '>', found " + END),
    ("resolve fn(i32,) -> i8", 1, 16, "expected a term, found ')'"),
    ("resolve fn(i32) i8", 1, 17, "expected '->', found 'i8'"),
    ("resolve Range 4<i8>", 1, 15, "expected a range kind from 0 up to 3, found '4'"),
    ("resolve Map<i8>", 1, 15, "expected ',', found '>'"),
    ("resolve ?", 1, 10, "expected a variable's number or name, found " + END),
    ("resolve \u0661", 1, 9, "expected a term, found '\u0661'"),
    ("resolve \x00", 1, 9, "expected a term, found '\\x00'"),
    ("resolve struct 1<2 = i8, i16>", 1, 26, "expected a member's number or name, found 'i16'"),
    ("resolve struct 1<2 = i8, 2 = i16>", 1, 26, "expected a member above 2, since members rise, found '2'"),
    ("resolve struct 1<>", 1, 18, "expected a term, found '>'"),
    ("resolve Closed", 1, 9, "expected a term, found 'Closed', which no line before names"),
    ("resolve I32", 1, 9, "expected a term, found 'I32', which no line before names (is it 'i32'?)"),
    ("name struct ClosedPath = 2\nresolve ClosePath", 2, 9,
     "expected a term, found 'ClosePath', which no line before names (is it 'ClosedPath'?)"),
    ("name member M = 1\nresolve M", 2, 9, "expected a term, found 'M', which is the name of a member"),
    ("name struct S = 1\nresolve <i8 as S>::2", 2, 16, "expected 'trait' or the name of a trait, found 'S', which is the name of a struct"),
    ("name struct S = 1\nname enum S = 2", 2, 11, "expected a new name, found 'S', which is the name of a struct"),
    ("name struct i32 = 1", 1, 13, "expected a name, found 'i32', which is a word of the text form"),
    ("name struct 7 = 1", 1, 13, "expected a name, found '7'"),
    ("resolve generic 4", 1, 18, "expected '.', found " + END),
    ("instantiate {Self 1 = i8, generic 1.0 = i8} in i8", 1, 27,
     "expected 'Self', since entries for generics stand before those for Self, found 'generic'"),
    ("normalise [i32 = i8] in i8", 1, 12, "expected '<', found 'i32'"),
    ("resolve " + "Array<" * 200 + "i8", 1, 1209, "expected a term of at most 200 levels, found 'i8'"),
    ("resolve " + "(" * 100000, 1, 209, "expected a term of at most 200 levels, found '('"),
    ("bytes 0", 1, 7, "expected pairs of hexadecimal digits, found '0'"),
    ("bytes 00, 01", 1, 9, "expected pairs of hexadecimal digits, found ','"),
    ("bytes 17 => yes", 1, 13, "expected 'refused' or 'bytes', found 'yes'"),
    ("bytes 15 => yes", 1, 13, "expected a term, found 'yes'"),
    ("number site 1 fallback i8 from", 1, 31, "expected a bound, found " + END),
    ("number site 1 fallback i8 from -", 1, 33, "expected a bound, found " + END),
    ("number site 1 fallback i8 from --1 to 2", 1, 33, "expected a bound, found '-'"),
    ("number site 1 fallback i8 from 1", 1, 33, "expected 'to', found " + END),
    ("number site 1 fallback i8 from 1 to", 1, 36, "expected a bound, found " + END),
    ("number site 1 fallback i8 from 1 to 18446744073709551616", 1, 37, "expected a bound up to 18446744073709551615, found '18446744073709551616'"),
    ("number site 1 fallback i8 from 1 to " + "9" * 5000, 1, 37, "expected a bound up to 18446744073709551615, found '%s...'" % ("9" * 27)),
    ("number site 1 from 1 to 2", 1, 15, "expected 'fallback', found 'from'"),
    ("number site 1 fallback i8 to 2", 1, 27, "expected the end of the line or '=>', found 'to'"),
    ("number site 1 fallback i8 from 1 to 2 3", 1, 39, "expected the end of the line or '=>', found '3'"),
    ("number site 1 fallback i8 from 1 to 2 => yes", 1, 42, "expected a term, found 'yes'"),
    ("tail", 1, 5, "expected bytes that do not start with a whole order, found " + END),
    ("tail 01 08", 1, 6, "expected bytes that do not start with a whole order, found '01'"),
    ("tail 80\nrevision", 2, 1, "expected the end of the text, since nothing is read after 'tail', found 'revision'"),
    ("constrain strictly", 1, 19, "expected a term, found " + END),
    ("constrain strictly checks 9 i8 = i8", 1, 29, "expected ':', found 'i8'"),
    ("constrain checks 9: strictly i8 = i8", 1, 21, "expected a term, found 'strictly'"),
    ("constrain strictly i8 to i8", 1, 23, "expected '=', found 'to'"),
    ("name struct strictly = 1", 1, 13, "expected a name, found 'strictly', which is a word of the text form"),
    ("constrain strictly i8 = i8 => yes", 1, 31, "expected 'incompatible' or 'compatible' or 'cancelled', found 'yes'"),
    ("bytes 16 => yes", 1, 13, "expected 'incompatible' or 'compatible' or 'cancelled', found 'yes'"),
    ("constrain i8 = i8 => maybe", 1, 22, "expected 'incompatible' or 'compatible' or 'cancelled', found 'maybe'"),
    ("revision => refused 256", 1, 21, "expected a refusal up to 255, found '256'"),
]


def main():
    parser = argparse.ArgumentParser(description=__doc__, formatter_class=argparse.RawDescriptionHelpFormatter)
    parser.add_argument("--program", default=os.path.join(ROOT, "crates", "checker", "out", "checker"))
    parser.add_argument("--sheets", type=int, default=200, metavar="N", help="random sheets (default 200)")
    parser.add_argument("--write", action="store_true", help="write the transcripts of the examples")
    tests = Tests(parser.parse_args())
    for test in (tests.bar, tests.by_hand, tests.spaces, tests.faults, tests.changed_texts, tests.random_sheets, tests.cases, tests.damaged,
                 tests.random_bytes, tests.commands, tests.transcripts, tests.program, tests.document):
        test()
    print("%d passed, %d failed" % (tests.passed, tests.failed))
    return 1 if tests.failed else 0


if __name__ == "__main__":
    sys.exit(main())
