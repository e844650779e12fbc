"""What the commands of terms_cases.py, orders_cases.py and sheet_cases.py share: files written and checked, slips found, the command line."""

import os
import sys

SHOWN = 90      # characters of a line of bytes


def shortened(text):
    return text if len(text) < SHOWN else text[:SHOWN - 6] + " ..."


def put(path, content):
    with open(path, "wb") as file:
        file.write(content)


def store(directory, data, stated):
    """Writes what a program is given, and what it is to write."""
    put(os.path.join(directory, "stdin"), data)
    put(os.path.join(directory, "stdout"), stated)


def check_stored(directory, data, stated, count):
    """Whether a crate's stdin and stdout are these; gives the exit status."""
    wrong = []
    for name, content in (("stdin", data), ("stdout", stated)):
        with open(os.path.join(directory, name), "rb") as file:
            if file.read() != content:
                wrong.append(os.path.join(directory, name))
    for name in wrong:
        print("%s is not what the cases state" % name)
    print("%d passed, %d failed" % (0 if wrong else count, len(wrong)))
    return 1 if wrong else 0


def check_plain(classes, finder):
    """Stops where a class that other slips rest on has a fault itself."""
    for how in classes:
        found = finder(how)
        if found is not None:
            sys.exit("%s has no fault, but differs: %s" % (how.__name__, found))


def check_slips(slips, finder):
    """Shows what finds each slip: finder(how) names a case, or is None. Gives the exit status."""
    missed = 0
    for name, how in slips.items():
        found = finder(how)
        missed += found is None
        print("%-44s %s" % (name, found or "NOT FOUND"))
    print("%d passed, %d failed" % (len(slips) - missed, missed))
    return 1 if missed else 0


def run_cases(doc, alone, with_directory):
    """Runs the command that the line names: one of alone, or one of with_directory, which is given a directory. Gives the exit status."""
    words = sys.argv[1:]
    if len(words) == 1 and words[0] in alone:
        return alone[words[0]]()
    if len(words) == 2 and words[0] in with_directory:
        return with_directory[words[0]](words[1])
    sys.exit(doc)
