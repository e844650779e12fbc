"""Small lists of orders, tried with every assignment of a small universe of terms: what strict_small.py and range_small.py share."""

import argparse
import itertools
import shlex

from comparing import Differs, slips_verdict
from sheet_compare import Frames, Plain, Program, in_chunks
from sheet_reference import Sheet
from sheet_slips import SLIPS

ROOM = Sheet.OUTPUT


class Wrong(Exception):
    """A list whose answers no assignments of the universe explain."""


class Trial:
    """Groups of lists: a universe of terms, the sheet of a list, what is checked of its answers, how a fault is told, and the slips that are found so."""

    def __init__(self, groups, universe, sheet_of, check_heights, check_list, told, found):
        self.groups, self.universe, self.sheet_of, self.check_heights = groups, universe, sheet_of, check_heights
        self.check_list, self.told, self.found = check_list, told, found

    def check_group(self, name, program, every):
        """How many lists there were; the first that is wrong raises Wrong."""
        make, constants, constructors, levels, variables, share = self.groups[name]
        universe, count = self.universe(constants, constructors, levels * variables, variables), 0
        for chunk in in_chunks(itertools.islice(make(), 0, None, every * share)):
            self.check_heights(chunk, levels)
            runs = program.runs([(ROOM, self.sheet_of(*each)) for each in chunk])
            for each, run in zip(chunk, runs):
                try:
                    self.check_list(universe, *each, run.output)
                except Wrong as fault:
                    raise Wrong(self.told(*each, run.output, fault.args[0]))
            count += len(chunk)
        return count, universe

    def check(self, programs, names, every):
        passed = 0
        for who, program in programs.items():
            for name in names:
                try:
                    count, universe = self.check_group(name, program, every)
                except (Wrong, Differs) as fault:
                    print("%s, group %s: %s\n%d passed, 1 failed" % (who, name, fault.args[0], passed))
                    return 1
                print("%-10s%9d lists, %d terms, %d assignments" % (name, count, len(universe.terms), len(universe.assignments)), flush=True)
                passed += count
        print("%d passed, 0 failed" % passed)
        return 0

    def check_slips(self, slips, names, every):
        left = dict.fromkeys(slips)
        for slip in slips:
            for name in names:
                try:
                    self.check_group(name, Plain(SLIPS[slip]), every)
                except Wrong as fault:
                    print("%-44s group %s: %s" % (slip, name, fault.args[0].split("\n")[0]), flush=True)
                    del left[slip]
                    break
        return slips_verdict(slips, left)

    def main(self, description):
        parser = argparse.ArgumentParser(description=description, formatter_class=argparse.RawDescriptionHelpFormatter)
        parser.add_argument("--self", action="store_true")
        parser.add_argument("--frames", metavar="COMMAND")
        parser.add_argument("--program", metavar="COMMAND")
        parser.add_argument("--slip", choices=("all",) + self.found, metavar="NAME")
        parser.add_argument("--group", choices=list(self.groups))
        parser.add_argument("--every", type=int, default=1, metavar="N")
        options = parser.parse_args()
        names = [options.group] if options.group else list(self.groups)
        if options.slip:
            return self.check_slips(self.found if options.slip == "all" else (options.slip,), names, options.every)
        programs = {"reference": Plain()} if options.self else {}
        for text, kind in ((options.frames, Frames), (options.program, Program)):
            if text:
                programs[text] = kind(shlex.split(text))
        if not programs:
            parser.error("give --self, --frames, --program or --slip")
        return self.check(programs, names, options.every)
