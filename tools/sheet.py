#!/usr/bin/env python3
"""Writes, runs and shows sheets as text. docs/TEXT.md has the grammar.

  python3 tools/sheet.py run FILE                   assemble, run the proved program, show every answer beside its order
  python3 tools/sheet.py assemble FILE -o SHEET     the bytes of the sheet
  python3 tools/sheet.py show SHEET                 the text of any bytes
  python3 tools/sheet.py show SHEET --answers FILE  the same with answers that were kept

FILE, SHEET and -o take - for standard input and output. --hex: run shows the
bytes too, assemble writes hexadecimal digits, and show reads them. The exit
status is 1 where a text has a fault, a file or the program is missing, or an
answer is not as stated.
"""

import argparse
import os
import subprocess
import sys

import sheet_text as text_form
from sheet_reading import hexadecimal
from sheet_tokens import TextError, Tokens
from sheet_words import ROOM

ROOT = os.path.dirname(os.path.dirname(os.path.abspath(__file__)))
PROGRAM = os.path.join(ROOT, "crates", "checker", "out", "checker")


class Failed(Exception):
    """What to say on standard error before the exit with status 1."""


# Files

def content(path):
    try:
        if path == "-":
            return sys.stdin.buffer.read()
        with open(path, "rb") as file:
            return file.read()
    except OSError as fault:
        raise Failed("%s: %s" % (path, fault.strerror))


def put(path, data):
    try:
        if path == "-":
            sys.stdout.buffer.write(data)
            sys.stdout.buffer.flush()
            return
        with open(path, "wb") as file:
            file.write(data)
    except BrokenPipeError:
        raise
    except OSError as fault:
        raise Failed("%s: %s" % (path, fault.strerror))


def put_lines(lines):
    put("-", "".join(line + "\n" for line in lines).encode("utf-8"))


def text_of(path):
    """A file as text."""
    data = content(path)
    try:
        return data.decode("utf-8-sig")
    except UnicodeDecodeError as fault:
        line = data.count(b"\n", 0, fault.start) + 1
        column = len(data[data.rfind(b"\n", 0, fault.start) + 1:fault.start].decode("utf-8", "replace")) + 1
        raise Failed("%s:%d:%d: expected UTF-8 text, found the byte %02x (is it a sheet in bytes? then use show)"
                     % (named(path), line, column, data[fault.start]))


def named(path):
    return "standard input" if path == "-" else path


def faulty(fault, path, text):
    return Failed(text_form.located(fault, named(path), text))


def script_in(path):
    text = text_of(path)
    try:
        return text_form.assemble(text)
    except TextError as fault:
        raise faulty(fault, path, text)


def bytes_in(path, as_hex):
    """The bytes of a file, which has hexadecimal digits if as_hex."""
    if not as_hex:
        return content(path)
    text, parts = text_of(path), []
    for number, each in enumerate(text.split("\n"), 1):
        line = Tokens(each, None)
        try:
            parts.append(line.raw())
            if line.peek():
                line.fail("pairs of hexadecimal digits")
        except TextError as fault:
            fault.line = number
            raise faulty(fault, path, text)
    return b"".join(parts)


# Commands

def answers_of(program, sheet):
    """What the program writes for a sheet."""
    path = os.path.abspath(program) if os.path.exists(program) else program
    try:
        done = subprocess.run([path], input=sheet[:ROOM], stdout=subprocess.PIPE, check=False)
    except OSError as fault:
        raise Failed("%s: %s. Build it with: cd crates/checker && rt run <stdin. Or give another with --program."
                     % (shown(program), fault.strerror))
    if done.returncode:
        raise Failed("%s ended with status %d" % (shown(program), done.returncode))
    return done.stdout


def shown(program):
    return os.path.relpath(program) if program == PROGRAM else program


def run(options):
    script = script_in(options.file)
    answers = answers_of(options.program, script.sheet())
    lines, wrong = text_form.transcript(script, answers, options.hex)
    last = text_form.summary(script, answers, wrong, ROOM)
    put_lines(lines + last)
    return 1 if wrong or last[-1].endswith(text_form.ODD) else 0


def assemble(options):
    sheet = script_in(options.file).sheet()
    put(options.output, (hexadecimal(sheet) + "\n").encode() if options.hex else sheet)
    return 0


def show(options):
    script = text_form.script_of(bytes_in(options.sheet, options.hex))
    if options.answers is None:
        put_lines(text_form.plain_lines(script))
        return 0
    answers = bytes_in(options.answers, options.hex)
    last = text_form.summary(script, answers)
    put_lines(text_form.transcript(script, answers)[0] + last)
    return 1 if last[-1].endswith(text_form.ODD) else 0


def options_of(words):
    parser = argparse.ArgumentParser(description=__doc__, formatter_class=argparse.RawDescriptionHelpFormatter)
    commands = parser.add_subparsers(dest="command", required=True)
    one = commands.add_parser("run", help="assemble a text, run the proved program, show every answer beside its order")
    one.add_argument("file", help="a text, - for standard input")
    one.add_argument("--program", default=PROGRAM, help="the sheet program (default: crates/checker/out/checker)")
    one.add_argument("--hex", action="store_true", help="show the bytes too")
    one.set_defaults(do=run)
    one = commands.add_parser("assemble", help="write the bytes of a text")
    one.add_argument("file", help="a text, - for standard input")
    one.add_argument("-o", "--output", default="-", help="where to (default: standard output)")
    one.add_argument("--hex", action="store_true", help="write hexadecimal digits")
    one.set_defaults(do=assemble)
    one = commands.add_parser("show", help="write the text of bytes")
    one.add_argument("sheet", help="a sheet, - for standard input")
    one.add_argument("--answers", metavar="FILE", help="the answers to this sheet, to show beside the orders")
    one.add_argument("--hex", action="store_true", help="read hexadecimal digits")
    one.set_defaults(do=show)
    return parser.parse_args(words)


def main(words):
    options = options_of(words)
    try:
        return options.do(options)
    except Failed as fault:
        print(fault, file=sys.stderr)
        return 1
    except (BrokenPipeError, KeyboardInterrupt):
        os.dup2(os.open(os.devnull, os.O_WRONLY), sys.stdout.fileno())
        return 1


if __name__ == "__main__":
    sys.exit(main(sys.argv[1:]))
