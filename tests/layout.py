#!/usr/bin/env python3
"""Looks at the text of the crates, for what the check of the proofs does not ask.

  python3 tests/layout.py [--without RULE]...

The rules:
  assumed    no axiom, postulate or trusted part, none of antt's axioms lem and ac, no hole `?`, no block of C functions
  columns    no line of a contract (requires, ensures) is longer than COLUMNS
  bodies     no function body has more than LINES lines, but for those listed in LONG with the reason
  modules    every module of specs and proofs is declared by a line `mod` of the file above it, and every proof of a function is that of a
             function that there is

Comments do not count. The last line is 'N passed, 0 failed'; each file counts once for each rule that is for it.
"""

import argparse
import os
import re
import sys

ROOT = os.path.dirname(os.path.dirname(os.path.abspath(__file__)))
CRATES = os.path.join(ROOT, "crates")
COLUMNS = 160
LINES = 40
LONG = {
    ("terms", "walk"): "47 lines: its loop has no function of its own (docs/DECISIONS.md)",
}
ASSUMED = (
    (re.compile(r"(?<![\w·'′-])(axiom|postulate|trusted|lem|ac)(?![\w·'′-])"), "the word %s"),
    (re.compile(r"(?<![\w·'′?])(\?)"), "a hole %s"),
    (re.compile(r'(extern "C" \{)'), "a block %s"),
)
FUNCTION = re.compile(r"( *)(?:pub )?(?:extern \"C\" )?fn (\w+)")
CLAUSE = re.compile(r" *(requires|ensures)\b")


def files(*endings):
    """The files of the crates: crate, path within it, lines without comments."""
    for crate in sorted(os.listdir(CRATES)):
        for directory, _, names in sorted(each for part in ("src", "specs", "proofs") for each in os.walk(os.path.join(CRATES, crate, part))):
            for name in sorted(names):
                if name.endswith(endings):
                    path = os.path.join(directory, name)
                    with open(path, encoding="utf-8") as file:
                        lines = file.read().splitlines()
                    comment = re.compile(r"(^|\s)--.*" if name.endswith(".antt") else r"//.*")
                    yield crate, os.path.relpath(path, os.path.join(CRATES, crate)), [comment.sub("", line) for line in lines]


def functions(lines):
    """The functions of a source file: the type of the impl block or None, of a trait's the folder of its proofs, the name, the lines of the contract and the size
    of the body. What a trait asks has no body."""
    within = None
    for at, line in enumerate(lines):
        block, start = re.match(r"impl(?:<[^>]*>)? (?:(\w+)(?:<(\w+)>)? for )?(\w+)", line), FUNCTION.match(line)
        trait = block and block.group(1) and "/" + block.group(3) + block.group(1) + (block.group(2) or "").capitalize()
        within = None if line == "}" else within if not block else trait or block.group(3)
        if not start:
            continue
        indent = start.group(1)
        # The body opens on a line of its own behind a contract, and else at the end of the head.
        opens = re.compile(r"%s\{|%s\).*\{|.*\bfn .*\{" % (indent, indent))
        end = next(number for number in range(at, len(lines)) if opens.fullmatch(lines[number]) or lines[number].endswith(";"))
        last = end if lines[end].endswith(";") else next(number for number in range(end, len(lines)) if lines[number] == indent + "}")
        contract = range(at, end + 1 if last == end else end)
        clauses = [number for number in contract if CLAUSE.match(lines[number])]
        yield within, start.group(2), range(clauses[0], contract.stop) if clauses else range(0), max(last - end - 1, 0)


def assumed():
    """Each file, and what it assumes. In a source file a `?` behind a call is the operator that hands a refusal on."""
    for crate, path, lines in files(".antt", ".rt"):
        if path.endswith(".rt"):
            lines = [line.replace(")?", ")") for line in lines]
        yield crate, path, ["line %d: %s" % (number, words % found) for number, line in enumerate(lines, 1)
                            for pattern, words in ASSUMED for found in pattern.findall(line)]


def sources():
    return ((crate, path, lines) for crate, path, lines in files(".rt") if path.startswith("src"))


def columns():
    """Each source file, and the lines of its contracts that are too long."""
    for crate, path, lines in sources():
        yield crate, path, ["line %d: %d columns in the contract of %s" % (number + 1, len(lines[number]), name)
                            for _, name, contract, _ in functions(lines) for number in contract if len(lines[number]) > COLUMNS]


def bodies():
    """Each source file, and the functions that are too long."""
    for crate, path, lines in sources():
        yield crate, path, ["%s has %d lines" % (name, size) for _, name, _, size in functions(lines)
                            if size > LINES and (crate, name) not in LONG]


def proof_places():
    """By crate, the folders of proofs that are those of a function."""
    found, types = {}, {}
    for crate, path, lines in sources():
        module = os.path.splitext(path)[0][len("src/"):]
        for name in re.findall(r"^(?:pub )?(?:struct|enum) (\w+)", "\n".join(lines), re.M):
            types[crate, name] = name if module in ("lib", "main") else module + "/" + name
    for crate, path, lines in sources():
        module = os.path.splitext(path)[0][len("src/"):]
        for owner, name, _, _ in functions(lines):
            if owner and owner.startswith("/"):
                owner = owner[1:] if module in ("lib", "main") else module + owner
            owner = types.get((crate, owner), owner)
            found.setdefault(crate, {})["/".join([owner or module, name] if owner or module not in ("lib", "main") else [name])] = path
        # A cycle of calls has a name of its own, and its folder begins with a +. That of methods is in the folder of their type.
        text = "\n".join(lines)
        for cycle in re.finditer(r"^( *)#\[cycle\((\w+)\)\]", text, re.M):
            owner = re.findall(r"^impl(?:<[^>]*>)? (\w+)", text[:cycle.start()], re.M)[-1] if cycle.group(1) else None
            found.setdefault(crate, {})["%s/+%s" % (types.get((crate, owner), module), cycle.group(2))] = path
    return found


def undeclared(crate, path, places):
    """Why a file of specs or proofs is no module that something declares, or None."""
    folder, name = os.path.split(path)
    if name == "Lib.antt" and folder in ("specs", "proofs"):
        return None
    if name in ("Proof.antt", "Invariants.antt", "Answers.antt"):
        above, _, own = folder[len("proofs/"):].rpartition("/")
        at = "/".join([above, own] if above else [own])
        called = at.replace("/+", "/") if at not in places.get(crate, {}) else at       # a function that calls itself
        return None if called in places.get(crate, {}) else "there is no function %s" % at
    parent = os.path.join(CRATES, crate, folder + ("/Lib.antt" if folder in ("specs", "proofs") else ".antt"))
    if not os.path.isfile(parent):
        return "there is no file %s" % os.path.relpath(parent, CRATES)
    with open(parent, encoding="utf-8") as file:
        if not re.search(r"^(pub )?mod %s$" % re.escape(name[:-len(".antt")]), file.read(), re.M):
            return "%s has no line mod %s" % (os.path.relpath(parent, CRATES), name[:-len(".antt")])
    return None


def modules():
    """Each file of specs and proofs, and why it is not declared."""
    places = proof_places()
    for crate, path, _ in files(".antt"):
        fault = undeclared(crate, path, places)
        yield crate, path, [fault] if fault else []


RULES = {"assumed": assumed, "columns": columns, "bodies": bodies, "modules": modules}


def main():
    parser = argparse.ArgumentParser(description=__doc__, formatter_class=argparse.RawDescriptionHelpFormatter)
    parser.add_argument("--without", action="append", choices=list(RULES), default=[], metavar="RULE")
    options = parser.parse_args()
    passed = failed = 0
    for name, rule in RULES.items():
        if name in options.without:
            print("LEFT OUT: layout: the rule %s" % name)
            continue
        for crate, path, faults in rule():
            passed += not faults
            failed += len(faults)
            for fault in faults:
                print("crates/%s/%s: %s" % (crate, path, fault))
    print("%d passed, %d failed" % (passed, failed))
    return 1 if failed else 0


if __name__ == "__main__":
    sys.exit(main())
