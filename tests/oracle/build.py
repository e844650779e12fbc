#!/usr/bin/env python3
"""Builds the oracle: Kagari's own functions behind document 01's bytes.

  python3 tests/oracle/build.py [--source DIR] [--out DIR]

The oracle answers orders 9 to 20. It reads orders with their lengths from
standard input, at most 32,768 bytes, and writes answers with their lengths,
at most 32,768 bytes or as many as its argument says. Other kinds get
refusal 2.

With the argument sheets it answers whole sheets, orders 0 to 20, each sheet
with a session of its own. Standard input is a run of sheets: room for
answers, length, each four bytes with the low byte first, and the sheet. For
each one come out: the reason, a byte; orders answered, bytes of answers, four
bytes each; the answers. Reason 255 stands for a sheet that the Rust could
not go on with, as its terms grew too large, 253 for one with an order 22 and
252 for one with an order 21 that is not refused, which Kagari does not have;
the answers before stand.

DIR of --source holds Kagari's sources (KAGARI_SOURCE of the environment, or
../shared/docs/src beside the repository). What is built goes to DIR of --out
(target/oracle). rustc alone is needed.

Taken from the sources, as text, when the oracle is built; nothing of it is
kept in this repository:
  types.rs                 the types TYPES below with their impl blocks, and
                           the methods METHODS of TypeId
  typeck/associated.rs     normalize
  typeck/solver.rs         Solver with all its methods
Not taken are methods of TypeId that no order asks for; some of them lean on
files that we do not have.

Written here, as stand-ins or around it:
  standins.rs    ids, builtins, accesses, range kinds and bounds, which the
                 listed files do not define
  kagari.rs      the place of what is taken. map_children is taken into a
                 trait, and a method of the same name counts the children
                 before it calls it: refusal 9 needs the number. No line of
                 normalize or map_children is changed, but for the word pub
                 before the latter. substitute_once is taken in the same way,
                 and a method of its name counts the nodes it meets and
                 inserts, so that a term that grows without end is left.
  format.rs      reader and writer of the byte form, with refusals 1 to 7
  orders.rs      orders 9 to 20, and refusal 9
  solver.rs      the place of Solver
  sheets.rs      orders 0 to 8, refusals of orders 21 and 22, refusal 8, whole sheets
  stack.rs       a thread with a large stack
  main.rs        lengths, the limits of input and output
and for tests/judge.py, which links the static library beside all this:
  judge.rs       frames in, both sides compared, the first difference told
  lent.rs        what is lent to the library, between guards
  ffi.rs         the library's declaration, out of bindings/rust/src
  tables.rs      counts by kind, outcome and answer

The build stops where the sources lack an item.
"""

import argparse
import os
import shutil
import subprocess
import sys

HERE = os.path.dirname(os.path.abspath(__file__))
ROOT = os.path.dirname(os.path.dirname(HERE))
sys.path.insert(0, HERE)

import extract

SOURCE = os.environ.get("KAGARI_SOURCE") or os.path.join(ROOT, "..", "shared", "docs", "src")
OUT = os.path.join(ROOT, "target", "oracle")
TYPES_FILE = "src--crates--kagari-hir--src--types.rs.txt"
ASSOCIATED_FILE = "src--crates--kagari-hir--src--typeck--associated.rs.txt"
SOLVER_FILE = "src--crates--kagari-hir--src--typeck--solver.rs.txt"
# Where what is taken stands, by the variable that tells the compiler.
PLACES = {"KAGARI_TYPES": "taken_types.rs", "KAGARI_ASSOCIATED": "taken_associated.rs", "KAGARI_SOLVER": "taken_solver.rs"}

TYPES = (
    "struct TypeSubstitution",
    "impl Deref for TypeSubstitution",
    "impl DerefMut for TypeSubstitution",
    "impl FromIterator<(GenericParameterType, TypeId)> for TypeSubstitution",
    "impl TypeSubstitution",
    "struct GenericParameterType",
    "impl PartialEq for GenericParameterType",
    "impl Eq for GenericParameterType",
    "impl Hash for GenericParameterType",
    "struct AssociatedTypeParameters",
    "struct AssociatedTypeFamily",
    "impl AssociatedTypeFamily",
    "struct NominalType",
    "impl NominalType",
    "enum TypeId",
)
METHODS = (
    "is_never", "is_integer", "is_concrete", "is_unresolved", "contains_unknown", "contains_self_type",
    "contains_projection", "contains_type", "is_resolved_in", "conflicts_with", "can_weaken_to", "read_only_view",
    "collection_access", "recover_from", "instantiate", "argument_context", "with_self", "with_associated_types",
)


class Absent(extract.NotFound):
    """There is no compiler, or there are no sources."""


def left_out(name, fault):
    """Says that nothing was compared; gives the exit status, which is 0 only where WITHOUT_KAGARI=1 says that this is meant."""
    print("LEFT OUT: %s compares nothing: %s" % (name, fault))
    if os.environ.get("WITHOUT_KAGARI") == "1":
        return 0
    print("WITHOUT_KAGARI=1 says that this is meant")
    return 1


def read(source, name):
    path = os.path.join(source, name)
    if not os.path.isfile(path):
        raise extract.NotFound("there is no file %s" % path)
    with open(path, encoding="utf-8") as file:
        return file.read()


def block(head, texts):
    return "%s {\n%s\n}\n" % (head, "\n".join(texts))


def types_taken(text):
    """The items of types.rs that the oracle needs."""
    found = extract.items(text)
    whole = [extract.the_one(found, name, TYPES_FILE).text for name in TYPES]
    inner = extract.inside_of(found, "impl TypeId", TYPES_FILE)

    def method(name):
        return extract.the_one(inner, "fn " + name, TYPES_FILE)
    methods = block("impl TypeId", [method(name).text for name in METHODS])
    children = block("impl Children for TypeId", [method("map_children").without_visibility()])
    substitute = block("impl Substitute for TypeId", [method("substitute_once").without_visibility()])
    return "\n".join(whole + [methods, children, substitute])


def associated_taken(text):
    return extract.the_one(extract.items(text), "fn normalize", ASSOCIATED_FILE).text


def solver_taken(text):
    found = extract.items(text)
    return "\n".join(extract.the_one(found, name, SOLVER_FILE).text for name in ("struct Solver", "impl Solver"))


def taken(source=SOURCE):
    """The files with what is taken, by name."""
    if not os.path.isdir(source):
        raise Absent("there is no directory %s with Kagari's sources: the oracle cannot be built" % source)
    if not shutil.which("rustc"):
        raise Absent("there is no rustc: the oracle cannot be built")
    head = "// Taken from Kagari's sources by tests/oracle/build.py. Not to be committed.\n"
    texts = (types_taken(read(source, TYPES_FILE)), associated_taken(read(source, ASSOCIATED_FILE)),
             solver_taken(read(source, SOLVER_FILE)))
    return {name: head + text for name, text in zip(PLACES.values(), texts)}


def write(texts, out):
    os.makedirs(out, exist_ok=True)
    for name, text in texts.items():
        with open(os.path.join(out, name), "w", encoding="utf-8") as file:
            file.write(text)


def compiled(root, out, name, words=("-C", "opt-level=2")):
    """Compiles the program of that root, with what was taken in the directory out; gives its path."""
    out = os.path.abspath(out)
    places = {variable: os.path.join(out, place) for variable, place in PLACES.items()}
    program = os.path.join(out, name)
    command = ["rustc", "--edition", "2024", "--crate-name", name, "-o", program, root, *words]
    if subprocess.run(command, env={**os.environ, **places}).returncode != 0:
        raise extract.NotFound("rustc does not accept what was taken beside the stand-ins")
    return program


def build(source=SOURCE, out=OUT):
    """Builds the oracle and gives its path."""
    write(taken(source), out)
    return compiled(os.path.join(HERE, "main.rs"), out, "oracle")


def source_argument(parser):
    parser.add_argument("--source", default=SOURCE, metavar="DIR", help="Kagari's sources")


def arguments(parser, out=OUT):
    """Where the sources are, and where what is built goes."""
    source_argument(parser)
    parser.add_argument("--out", default=out, metavar="DIR", help="where what is built goes")


def main():
    parser = argparse.ArgumentParser(description=__doc__, formatter_class=argparse.RawDescriptionHelpFormatter)
    arguments(parser)
    options = parser.parse_args()
    try:
        print(build(options.source, options.out))
    except extract.NotFound as fault:
        sys.exit("oracle: %s" % fault)


if __name__ == "__main__":
    main()
