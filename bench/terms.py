#!/usr/bin/env python3
"""Measures how fast terms are read and written, and prints a Markdown table.

  python3 bench/terms.py

It builds the plain Rust reader in this directory and compares it with
crates/term_bench/out/term_bench where that program exists.

term_bench reads from the standard input: a mode byte (1 read, 2 write,
3 both), a repeat count of four bytes, low byte first, and the bytes of one
term. No term here contains an Inference, so no number of issued variables is
needed.

Times are taken from outside, for a small and a large repeat count. The rate
comes from the difference of the two, so that the start of a program does not
count.
"""

import os
import subprocess
import sys
import tempfile
import time

ROOT = os.path.dirname(os.path.dirname(os.path.abspath(__file__)))
sys.path.insert(0, os.path.join(ROOT, "tests"))

from terms_reference import Reader, number_bytes  # noqa: E402

MANIFEST = os.path.join(ROOT, "bench", "Cargo.toml")
RUST = os.path.join(ROOT, "bench", "target", "release", "plain_terms")
RATTLE = os.path.join(ROOT, "crates", "term_bench", "out", "term_bench")
MODES = (("read", 1), ("write", 2))
SECONDS = 0.25  # for the large repeat count
RUNS = 5


# Terms

def script():
    """A Function as a script has it: a Map, a Struct, and a Tuple as result."""
    return bytes.fromhex("06 02"
                         "0a 01 04 0b 09 04 09"
                         "0d ac 02 01 11 8c 01 00 01 05 04 02"
                         "05 03 00 00 0d ad 02 00 00 0e 0c 01 07 13 8c 01 00 04 0a")


def wide():
    """A Tuple of 2,000 small terms."""
    items = [bytes.fromhex("04 02"), bytes.fromhex("10 ac 02"), bytes.fromhex("02"), bytes.fromhex("11 07 01"),
             bytes.fromhex("04 09")]
    return b"\x05" + number_bytes(2000) + b"".join(items[n % 5] for n in range(2000))


def deep():
    """200 levels through Array, Reference, Tuple, Function, Map and Struct."""
    layers = [("09", ""), ("00 01", ""), ("05 01", ""), ("06 00", ""), ("0a 01 04 0b", ""), ("0d 81 01 01", "00")]
    term = bytes.fromhex("04 02")
    for level in range(199):
        before, after = layers[level % 6]
        term = bytes.fromhex(before) + term + bytes.fromhex(after)
    return term


def nominals(depth=6):
    """Structs with one argument and two members, 1,093 nodes."""
    if depth == 0:
        return bytes.fromhex("04 02")
    inner = nominals(depth - 1)
    return b"\x0d" + number_bytes(200 + depth) + b"\x01" + inner + b"\x02\x05" + inner + b"\x80\x01" + inner


def projections(depth=9):
    """Projections with interface arguments and members, 2,045 nodes."""
    if depth == 0:
        return bytes.fromhex("04 02")
    inner = projections(depth - 1)
    return (bytes.fromhex("12 11 07 00") + number_bytes(300 + depth) + b"\x01" + inner + b"\x01\x09" + inner
            + bytes.fromhex("88 01 01 04 03"))


TERMS = (("script term", script), ("wide, 2,000 children", wide), ("deep, 200 levels", deep),
         ("nominals with members", nominals), ("projections", projections))


def checked(term):
    """The number of nodes of a term that both sides can take."""
    reader = Reader(term)
    tree = reader.term(1)
    reader.used_up()
    nodes = reader.nodes(tree)
    assert nodes <= Reader.NODES and len(term) <= 32000
    return nodes


# Times

def rust_run(term, file, mode, repeat):
    return [RUST, mode[0], str(repeat), file], None


def rattle_run(term, file, mode, repeat):
    return [RATTLE], bytes([mode[1]]) + repeat.to_bytes(4, "little") + term


def seconds(side, term, file, mode, repeat):
    command, data = side(term, file, mode, repeat)
    start = time.perf_counter()
    done = subprocess.run(command, input=data, stdout=subprocess.DEVNULL)
    spent = time.perf_counter() - start
    if done.returncode != 0:
        sys.exit("%s ended with status %d" % (command[0], done.returncode))
    return spent


def repeats(side, term, file, mode):
    """A small and a large repeat count."""
    start = min(seconds(side, term, file, mode, 1) for _ in range(3))
    repeat = 16
    while True:
        spent = seconds(side, term, file, mode, repeat) - start
        if spent > 0.05:
            break
        repeat *= 4
    large = max(8, int(repeat * SECONDS / spent))
    return large // 8, large


def rates(sides, term, file, mode):
    """Bytes a second, for each side. The sides take turns, and the shortest times count."""
    counts = [repeats(side, term, file, mode) for side in sides]
    best = [[float("inf"), float("inf")] for _ in sides]
    for _ in range(RUNS):
        for which, side in enumerate(sides):
            for size in (0, 1):
                spent = seconds(side, term, file, mode, counts[which][size])
                best[which][size] = min(best[which][size], spent)
    found = []
    for (few, many), (shorter, longer) in zip(counts, best):
        if longer <= shorter:
            sys.exit("the times of %d and %d repeats do not differ" % (few, many))
        found.append(len(term) * (many - few) / (longer - shorter))
    return found


def main():
    built = subprocess.run(["cargo", "build", "--release", "--offline", "--quiet", "--manifest-path", MANIFEST])
    if built.returncode != 0:
        sys.exit("the Rust reader does not build")
    with_rattle = os.path.exists(RATTLE)
    sides = [rust_run, rattle_run] if with_rattle else [rust_run]
    columns = ["term", "bytes", "nodes"]
    for mode, _ in MODES:
        columns += [mode + ", Rust"] + ([mode + ", Rattle", "Rattle / Rust"] if with_rattle else [])
    print("Million bytes a second." + ("" if with_rattle else " There is no crates/term_bench/out/term_bench: Rust alone."))
    print()
    print("| " + " | ".join(columns) + " |")
    print("|---|" + "---:|" * (len(columns) - 1))
    for name, make in TERMS:
        term = make()
        cells = [name, "{:,}".format(len(term)), "{:,}".format(checked(term))]
        with tempfile.NamedTemporaryFile() as file:
            file.write(term)
            file.flush()
            for mode in MODES:
                found = rates(sides, term, file.name, mode)
                cells += ["%.1f" % (rate / 1e6) for rate in found]
                if with_rattle:
                    cells.append("%.2f" % (found[1] / found[0]))
        print("| " + " | ".join(cells) + " |", flush=True)


if __name__ == "__main__":
    main()
