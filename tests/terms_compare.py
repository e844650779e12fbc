#!/usr/bin/env python3
"""Compares the program with the reference on random and on all short frames.

  python3 tests/terms_compare.py [--program crates/reread/out/reread] [--frames N] [--seed S]
  python3 tests/terms_compare.py --exhaustive    also all frames of three bytes after the kind (7 minutes)
  python3 tests/terms_compare.py --slip NAME     with a reference that has one fault: must fail
  python3 tests/terms_compare.py --slip all      with each of them: passes if every one fails

Every byte of every answer is compared. The first frame that differs is
printed in hexadecimal, and the exit status is 1. The random frames are the
same for the same seed. The table shows the outcomes of the random frames;
an outcome that can occur but has a share below 0.1% of its row is a failure
in a run of 20,000 frames or more.

Without the program, --slip compares with the plain reference.
"""

import argparse
import os
import random
import shlex
import sys

import terms_cases
import terms_reference as reference
from comparing import Differs, OutcomeTable, compare, program_output, slips_verdict, verdict
from terms_generate import ENDS, random_frames, short_frames
from terms_reference import Reader, framed, split
from terms_slips import RUN_SLIPS, SLIPS

ROOT = os.path.dirname(os.path.dirname(os.path.abspath(__file__)))
DEFAULT_FRAMES = 20000
ROWS = ["term", "nominal", "number", "other kind", "empty"]
CAN_OCCUR = {"term": range(8), "nominal": range(8), "number": (0, 1, 3), "other kind": (2,), "empty": (1,)}
LEAST_SHARE = 0.001


# Inputs

def inputs_of(frames, rng):
    """The frames, gathered to inputs."""
    room = Reader.INPUT - max(map(len, ENDS))
    data = bytearray()
    for frame in frames:
        whole = framed(frame)
        if len(data) + len(whole) > room:
            yield bytes(data) + rng.choice(ENDS)
            data.clear()
        data += whole
    yield bytes(data) + rng.choice(ENDS)


def random_inputs(options):
    return inputs_of(random_frames(options.frames, options.seed), random.Random(options.seed))


def short_inputs(options):
    return inputs_of(short_frames(3 if options.exhaustive else 2), random.Random(options.seed))


def fixed_inputs(options):
    return (data for _, data in terms_cases.INPUTS)


def fixed_cases(options):
    yield terms_cases.case_input()[0]


GROUPS = (("random frames", random_inputs), ("short frames", short_inputs), ("fixed inputs", fixed_inputs),
          ("fixed cases", fixed_cases))


# Comparison

def output_of(command, data):
    """The program's output, or without a program that of the plain reference."""
    return reference.run(data) if command is None else program_output(command, data)


def compared(data, output, reader):
    """Compares the answers to one input; gives the pairs (frame, answer)."""
    pairs = reference.answers(data, reader)
    compare("frame", pairs, output)
    return pairs


def row_of(frame):
    return "empty" if not frame else ROWS[min(frame[0], 3)]


def table_of():
    def least(total):
        return max(1, LEAST_SHARE * total)
    return OutcomeTable(CAN_OCCUR, range(8), {}, least, least)


def check(command, options, reader):
    """The whole comparison; gives the exit status."""
    passed, table = {}, table_of()
    for group, inputs in GROUPS:
        passed[group] = 0
        for data in inputs(options):
            try:
                pairs = compared(data, output_of(command, data), reader)
            except Differs as difference:
                text, agreed = difference.args
                if group != "fixed inputs":
                    passed[group] += agreed
                print("%s, after %d that agree:\n%s" % (group, passed[group], text))
                print("%d passed, 1 failed" % sum(passed.values()))
                return 1
            passed[group] += 1 if group == "fixed inputs" else len(pairs)
            if group == "random frames":
                for frame, reply in pairs:
                    table.add(row_of(frame), split(reply)[0][0][0])
    for group, count in passed.items():
        print("%-14s%9d" % (group, count))
    if passed["random frames"] != options.frames or passed["fixed cases"] != len(terms_cases.CASES):
        print("some frames were not compared")
        return 1
    poor = table.show("Outcomes of the random frames")
    return verdict(sum(passed.values()), poor if options.frames >= DEFAULT_FRAMES else [])


def check_slips(command, options):
    """Every slip must be found; gives the exit status.

    The fixed inputs find the slips about runs, random and short frames the
    others. terms_cases.py slips shows what the fixed cases find.
    """
    left = dict(SLIPS)
    for group, inputs in GROUPS[:3]:
        frames = 0
        for data in inputs(options):
            here = [name for name in left if (name in RUN_SLIPS) == (group == "fixed inputs")]
            if not here:
                break
            try:
                output = output_of(command, data)
                pairs = compared(data, output, Reader)
            except Differs as difference:
                print("the reference without a slip differs too:\n%s" % difference.args[0])
                print("0 passed, 1 failed")
                return 1
            for name in here:
                try:
                    compared(data, output, left[name])
                except Differs as difference:
                    print("%-44s %s, frame %d" % (name, group, frames + difference.args[1] + 1))
                    del left[name]
            frames += len(pairs)
    return slips_verdict(SLIPS, left)


def main():
    parser = argparse.ArgumentParser(description=__doc__, formatter_class=argparse.RawDescriptionHelpFormatter)
    parser.add_argument("--program", help="the program, with its arguments if it takes any")
    parser.add_argument("--frames", type=int, default=DEFAULT_FRAMES, metavar="N")
    parser.add_argument("--seed", type=int, default=1, metavar="S")
    parser.add_argument("--exhaustive", action="store_true")
    parser.add_argument("--slip", choices=["all"] + list(SLIPS), metavar="NAME")
    options = parser.parse_args()
    command = shlex.split(options.program) if options.program else [os.path.join(ROOT, "crates", "reread", "out", "reread")]
    if not os.path.exists(command[0]):
        if options.program or not options.slip:
            sys.exit("there is no program %s" % command[0])
        print("no program: the plain reference takes its place")
        command = None
    if options.slip == "all":
        return check_slips(command, options)
    return check(command, options, SLIPS[options.slip] if options.slip else Reader)


if __name__ == "__main__":
    sys.exit(main())
