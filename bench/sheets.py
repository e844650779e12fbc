#!/usr/bin/env python3
"""Times the proved library and Kagari's own functions on the same sheets, and prints Markdown tables.

  python3 bench/sheets.py                       everything; the picture goes to docs/benchmarks.svg
  python3 bench/sheets.py classes hazards       these parts alone: classes, strict, ranges, hazards, solver, growth
  python3 bench/sheets.py classes --only deep   the rows whose name has this text
  python3 bench/sheets.py --quick               fewer and shorter rounds
  --library FILE     the library (crates/entry/out/libentry.a, which `rt lib` proves and writes in crates/entry)
  --picture FILE     where the picture goes

What is timed. A Rust program (bench/driver, rustc with opt-level 3) links the library and takes Kagari's Solver and
functions in as tests/oracle does, but without its counting of nodes and children. Both sides answer the same sheets in one
process: a pass is all sheets of a row, from the bytes of the sheet to the bytes of the answers. First the answers are
compared, reason, orders and every byte; no order may be refused. Then the sides take turns; a turn repeats the pass for some
milliseconds, and the least processor time of all turns counts. Our side calls sheet_run with areas of 16,384 words and an
output that are lent once and used again; clearing the areas is in the time, as it is a part of the run. The Rust reads each
order into its trees with tests/oracle/format.rs, has a new Solver for each sheet, and writes into a buffer that is used
again. Its answers to orders 9 to 20 are put together in small vectors by tests/oracle/orders.rs, which is in its time.

The part `strict` times order 22 beside order 4, both of the library, on pairs that both answer with the same bytes; the part
`ranges` order 21 beside order 1, on sheets that are answered with the same bytes. The Rust has no orders 21 and 22.
"""

import argparse
import os
import struct
import subprocess
import sys

HERE = os.path.dirname(os.path.abspath(__file__))
ROOT = os.path.dirname(HERE)
sys.path[:0] = [HERE, os.path.join(ROOT, "tests")]

import picture  # noqa: E402
import sheet_classes as made  # noqa: E402
from oracle import build as oracle  # noqa: E402

OUT = os.path.join(ROOT, "target", "bench")
LIBRARY = os.path.join(ROOT, "crates", "entry", "out", "libentry.a")
PICTURE = os.path.join(ROOT, "docs", "benchmarks.svg")
PARTS = ("classes", "strict", "ranges", "hazards", "solver", "growth")
TURNS = 4           # of the two sides of the parts `strict` and `ranges`


def built(library, source):
    """Builds the driver and gives its path."""
    if not os.path.isfile(library):
        sys.exit("there is no library %s: cd crates/entry && rt lib" % library)
    os.environ["KAGARI_UNCOUNTED"] = "1"
    words = ("-C", "opt-level=3", "-C", "codegen-units=1", "-C", "link-arg=" + os.path.abspath(library))
    try:
        oracle.write(oracle.taken(source), OUT)
        return oracle.compiled(os.path.join(HERE, "driver", "main.rs"), OUT, "driver", words)
    except oracle.extract.NotFound as fault:
        sys.exit("bench: %s" % fault)


class Timed:
    """The times of a pass in seconds, and what was answered in it."""

    def __init__(self, sheets, line):
        words = line.split()
        if words[1] != "0":
            sys.exit("%s orders are refused" % words[1])
        self.sheets, self.orders, self.bytes = len(sheets), int(words[0]), sum(map(len, sheets))
        self.ours, self.rust = (None if word == "-" else int(word) / 1e9 for word in (words[2], words[4]))

    @property
    def ratio(self):
        return None if self.rust is None else self.rust / self.ours


class Driver:
    def __init__(self, program, quick):
        self.program = program
        self.rounds, self.span = (15, 2) if quick else (80, 3)

    def times(self, sheets, room, rust):
        data = b"".join(struct.pack("<II", room, len(sheet)) + sheet for sheet in sheets)
        done = subprocess.run([self.program, str(self.rounds), str(self.span), str(int(rust))], input=data, stdout=subprocess.PIPE)
        if done.returncode != 0:
            sys.exit("the driver failed")
        return Timed(sheets, done.stdout.decode())


# Tables

def figure(value):
    """A number with three figures."""
    if value is None:
        return "-"
    if value >= 1000:
        return format(round(value), ",")
    return "%.*f" % (2 if value < 10 else 1 if value < 100 else 0, value)


def span(seconds):
    if seconds is None:
        return "-"
    for unit, size in (("s", 1), ("ms", 1e-3), ("us", 1e-6)):
        if seconds >= size:
            return "%s %s" % (figure(seconds / size), unit)
    return "%.0f ns" % (seconds * 1e9)


def row(*cells):
    print("| " + " | ".join(map(str, cells)) + " |", flush=True)


def rates(timed):
    """Sheets and orders a second of both sides."""
    for taken_time in (timed.ours, timed.rust):
        yield "-" if taken_time is None else figure(timed.sheets / taken_time)
        yield "-" if taken_time is None else figure(timed.orders / taken_time)


def classes_table(driver, only):
    row("class", "sheets", "orders", "bytes", "ours, sheets/s", "orders/s", "Rust, sheets/s", "orders/s", "ours / Rust")
    row("---", *["---:"] * 8)
    for one in made.classes():
        if only in one.name:
            timed = driver.times(one.sheets, one.room, one.rust)
            row(one.name, timed.sheets, format(timed.orders, ","), format(timed.bytes, ","), *rates(timed), figure(timed.ratio))


def beside_table(driver, only, title, first, second, rows):
    """The second order beside the first, which take turns: the least time of each counts."""
    row(title, "sheets", "orders", "bytes", "order %d, orders/s" % first, "order %d, orders/s" % second, "order %d / order %d" % (second, first))
    row("---", *["---:"] * 6)
    for one in rows:
        if only in one.name:
            turns = [[driver.times(sheets, made.ROOM, False) for sheets in (one.first, one.second)] for _ in range(TURNS)]
            left, right = (min(side, key=lambda timed: timed.ours) for side in zip(*turns))
            sizes = " and ".join(format(size, ",") for size in sorted({left.bytes, right.bytes}))
            row(one.name, left.sheets, format(left.orders, ","), sizes, figure(left.orders / left.ours), figure(right.orders / right.ours),
                figure(left.ours / right.ours))


def hazards_table(driver, only):
    row("hazard", "orders", "bytes", "ours", "Rust", "ours / Rust")
    row("---", *["---:"] * 5)
    for one in made.hazards():
        if only in one.name:
            timed = driver.times(one.sheets, one.room, one.rust)
            row(one.name, format(timed.orders, ","), format(timed.bytes, ","), span(timed.ours), span(timed.rust), figure(timed.ratio))


def solver_table(driver, only):
    """Chains of 10 to 500 variables, in milliseconds; most of them would double in the Rust."""
    row("shape, milliseconds a run", *made.chains.SIZES)
    row("---", *["---:"] * len(made.chains.SIZES))
    for name, sheets in made.solver_shapes():
        if only in name:
            row(name, *("%.3f" % (1000 * driver.times([sheet], made.ROOM, False).ours) for sheet in sheets))


def grown(driver, shape):
    """(size, ours, Rust) for each size."""
    for size in shape.sizes:
        timed = driver.times([made.sheet(shape.make(size))], shape.room, shape.rust >= size)
        yield size, timed.ours, timed.rust


def growth_table(driver, only, path):
    curves = []
    for shape in made.GROWTHS:
        if only not in shape.name:
            continue
        points = list(grown(driver, shape))
        curves.append((shape, points))
        row("%s: %s" % (shape.name, shape.unit), *(format(size, ",") for size, _, _ in points))
        row("---", *["---:"] * len(points))
        row("ours", *(span(ours) for _, ours, _ in points))
        row("Rust", *(span(rust) for _, _, rust in points))
        print()
    if not only:
        picture.write(path, [(shape.name, shape.unit, points) for shape, points in curves])


def main():
    parser = argparse.ArgumentParser(description=__doc__, formatter_class=argparse.RawDescriptionHelpFormatter)
    parser.add_argument("parts", nargs="*", metavar="PART")
    parser.add_argument("--only", default="", metavar="TEXT")
    parser.add_argument("--quick", action="store_true")
    parser.add_argument("--library", default=LIBRARY, metavar="FILE")
    parser.add_argument("--source", default=oracle.SOURCE, metavar="DIR", help="Kagari's sources")
    parser.add_argument("--picture", default=PICTURE, metavar="FILE")
    options = parser.parse_args()
    if not set(options.parts) <= set(PARTS):
        parser.error("the parts are " + ", ".join(PARTS))
    driver = Driver(built(options.library, options.source), options.quick)
    parts = options.parts or PARTS
    if "classes" in parts:
        classes_table(driver, options.only)
        print()
    if "strict" in parts:
        beside_table(driver, options.only, "pairs", 4, 22, made.strict_pairs())
        print()
    if "ranges" in parts:
        beside_table(driver, options.only, "number variables", 1, 21, made.ranges(512))
        print()
    if "hazards" in parts:
        hazards_table(driver, options.only)
        print()
    if "solver" in parts:
        solver_table(driver, options.only)
        print()
    if "growth" in parts:
        growth_table(driver, options.only, options.picture)


if __name__ == "__main__":
    main()
