#!/usr/bin/env python3
"""Fixed cases for orders 9 to 20.

  python3 tests/orders_cases.py write DIR   write DIR/stdin and DIR/stdout
  python3 tests/orders_cases.py list        print every case with its answer
  python3 tests/orders_cases.py slips       show for each slip the first case that finds it

Every case states its outcome by hand: a refusal, or the value that follows
outcome 0. The script stops where the reference answers anything else. A few
cases with deep or wide terms state ACCEPTED: outcome 0, with the value of the
reference.

CASES go into DIR/stdin as one run of orders with their lengths. MORE are
cases that would make that input too long; tests/orders_compare.py runs both.

Bytes are hexadecimal. The functions below write terms in bytes.
"""

import sys

import orders_reference as reference
from cases import check_plain, check_slips, run_cases, shortened, store
from orders_reference import framed, number_bytes

CASES = []  # (comment, order, outcome)
MORE = []
ACCEPTED = "accepted"
MOST = 4294967295
INPUT = OUTPUT = 32768


# Writing terms

def num(value):
    return number_bytes(value).hex()


def seq(*parts):
    return num(len(parts)) + "".join(parts)


def ref(access, term):
    return "00 %02x" % access + term


def inf(number):
    return "01" + num(number)


def builtin(code):
    return "04 %02x" % code


def tup(*terms):
    return "05" + seq(*terms)


def fun(parameters, result):
    return "06" + seq(*parameters) + result


def iter_(term):
    return "07" + term


def range_(kind, term):
    return "08 %02x" % kind + term


def arr(term, times=1):
    return "09" * times + term


def map_(access, key, value):
    return "0a %02x" % access + key + value


def set_(access, term):
    return "0b %02x" % access + term


def nom(declaration, arguments=(), members=()):
    """A bare nominal; members are pairs."""
    return num(declaration) + seq(*arguments) + seq(*(num(member) + term for member, term in members))


def native(*parts):
    return "0c" + nom(*parts)


def struct(*parts):
    return "0d" + nom(*parts)


def enum(*parts):
    return "0e" + nom(*parts)


def trait(*parts):
    return "0f" + nom(*parts)


def host(number):
    return "10" + num(number)


def gen(owner, position):
    return "11" + num(owner) + num(position)


def proj(receiver, interface, member, *arguments):
    return "12" + receiver + interface + num(member) + seq(*arguments)


def self_(number):
    return "13" + num(number)


def subst(entries=(), receivers=()):
    """entries are (owner, position, term), receivers (owner, term)."""
    return (seq(*(num(o) + num(p) + t for o, p, t in entries)) + seq(*(num(o) + t for o, t in receivers)))


def params(*pairs):
    return seq(*(num(o) + num(p) for o, p in pairs))


def rule(interface, receiver, member, arguments, value):
    return interface + receiver + num(member) + seq(*arguments) + value


U, E, I8, I32, I64, F32, F64, NEVER = "02", "03", builtin(0), builtin(2), builtin(3), builtin(8), builtin(9), builtin(10)
G, H, S = gen(0, 0), gen(0, 1), self_(0)
RO, RW = 0, 1       # access of Set and Map
SHARED, MUT = 0, 1  # access of Reference
NONE = subst()

# Every place of a term inside a term. The other terms there are I8.
PLACES = [
    ("Reference, target", lambda t: ref(MUT, t)),
    ("Tuple, first", lambda t: tup(t, I8)),
    ("Tuple, last", lambda t: tup(I8, t)),
    ("Function, parameter", lambda t: fun([t, I8], I8)),
    ("Function, result", lambda t: fun([I8], t)),
    ("Function, result alone", lambda t: fun([], t)),
    ("Iter", iter_),
    ("Range", lambda t: range_(2, t)),
    ("Array", arr),
    ("Map, key", lambda t: map_(RO, t, I8)),
    ("Map, value", lambda t: map_(RW, I8, t)),
    ("Set", lambda t: set_(RW, t)),
]
for name, make in (("NativeObject", native), ("Struct", struct), ("Enum", enum), ("Trait", trait)):
    PLACES.append((name + ", argument", lambda t, make=make: make(0, [I8, t], [(1, I8)])))
    PLACES.append((name + ", member", lambda t, make=make: make(0, [I8], [(1, I8), (2, t)])))
PLACES += [
    ("Projection, receiver", lambda t: proj(t, nom(0, [I8], [(1, I8)]), 7, I8)),
    ("Projection, interface argument", lambda t: proj(I8, nom(0, [I8, t], [(1, I8)]), 7, I8)),
    ("Projection, interface member", lambda t: proj(I8, nom(0, [I8], [(1, I8), (2, t)]), 7, I8)),
    ("Projection, argument", lambda t: proj(I8, nom(0, [I8], [(1, I8)]), 7, I8, t)),
]


def case(comment, outcome, order, where=None):
    """outcome is a refusal, the value in bytes, or ACCEPTED."""
    if isinstance(outcome, str) and outcome != ACCEPTED:
        outcome = bytes.fromhex(outcome)
    (CASES if where is None else where).append((comment, bytes.fromhex(order), outcome))


# ---------------------------------------------------------------- Order 9

def conflict(comment, value, left, right, both_ways=True):
    case("9 " + comment, "%02x" % value, "09" + left + right)
    if both_ways and left != right:
        case("9 " + comment + ", the other way round", "%02x" % value, "09" + right + left)


conflict("equal builtins", 0, I32, I32)
conflict("different builtins", 1, I32, I64)
conflict("builtins without a name, told apart by code", 1, builtin(30), builtin(31))
conflict("Unknown against anything", 0, U, set_(RO, I32))
conflict("Error against anything", 0, E, fun([I32], I32))
conflict("Inference against anything", 0, inf(MOST), proj(I32, nom(0), 0))
conflict("two Inference ids", 0, inf(0), inf(1))
conflict("marked line: ReadOnly and Mutable Set of I32", 1, set_(RO, I32), set_(RW, I32))
conflict("ReadOnly and Mutable Set of Unknown", 1, set_(RO, U), set_(RW, U))
conflict("ReadOnly and Mutable Map", 1, map_(RO, I32, I32), map_(RW, I32, I32))
conflict("Set and Map of different access", 1, set_(RO, U), map_(RW, U, U))
conflict("Set and Map of the same access", 1, set_(RO, U), map_(RO, U, U))
conflict("Sets of the same access", 0, set_(RW, U), set_(RW, I32))
conflict("access below an Array", 1, arr(set_(RO, I32)), arr(set_(RW, I32)))
conflict("Map: keys conflict", 1, map_(RO, I32, U), map_(RO, I64, U))
conflict("Map: values conflict", 1, map_(RO, U, I32), map_(RO, U, I64))
conflict("Map: no conflict", 0, map_(RW, I32, U), map_(RW, U, I64))
conflict("Shared and Mutable Reference", 1, ref(SHARED, U), ref(MUT, U))
conflict("References of the same access, targets conflict", 1, ref(MUT, I32), ref(MUT, I64))
conflict("References of the same access", 0, ref(MUT, I32), ref(MUT, U))
conflict("Tuples of different length, all Unknown", 1, tup(U), tup(U, U))
conflict("empty Tuples", 0, tup(), tup())
conflict("Tuples: the first parts conflict", 1, tup(I32, U), tup(I64, U))
conflict("Tuples: the last parts conflict", 1, tup(U, I32), tup(U, I64))
conflict("Tuples: Unknown on different sides", 0, tup(U, I32), tup(I64, U))
conflict("Functions with different counts", 1, fun([U], U), fun([], U))
conflict("Functions: parameters conflict", 1, fun([U, I32], U), fun([U, I64], U))
conflict("Functions: results conflict", 1, fun([U], I32), fun([U], I64))
conflict("Functions: no conflict", 0, fun([U, I32], U), fun([I64, U], I8))
conflict("Range kinds differ", 1, range_(0, U), range_(3, U))
conflict("Ranges of the same kind", 0, range_(2, U), range_(2, I32))
conflict("Ranges of the same kind, parts conflict", 1, range_(2, I8), range_(2, I32))
conflict("Iter: parts conflict", 1, iter_(I8), iter_(I32))
conflict("Iter and Array", 1, iter_(U), arr(U))
conflict("Array: parts conflict", 1, arr(I8), arr(I32))
for name, make in (("NativeObject", native), ("Struct", struct), ("Enum", enum), ("Trait", trait)):
    conflict(name + ": declarations differ", 1, make(1), make(2))
    conflict(name + ": argument counts differ", 1, make(1, [U]), make(1, [U, U]))
    conflict(name + ": the last arguments conflict", 1, make(1, [U, I32]), make(1, [U, I64]))
    conflict(name + ": member values conflict", 1, make(1, [], [(3, I32)]), make(1, [], [(3, I64)]))
    conflict(name + ": a member more", 1, make(1, [U], [(3, U)]), make(1, [U]))
    conflict(name + ": members with other names", 1, make(1, [], [(3, U), (5, U)]), make(1, [], [(3, U), (4, U)]))
    conflict(name + ": no conflict", 0, make(1, [U, I32], [(3, U), (4, I8)]), make(1, [I8, U], [(3, U), (4, U)]))
conflict("Struct and Enum with the same nominal", 1, struct(1), enum(1))
conflict("Hosts", 1, host(1), host(2))
conflict("the same Host", 0, host(1), host(1))
conflict("Generic: owners differ", 1, gen(1, 0), gen(2, 0))
conflict("Generic: positions differ", 1, gen(1, 0), gen(1, 1))
conflict("the same Generic", 0, gen(1, 2), gen(1, 2))
conflict("SelfTypes", 1, self_(0), self_(1))
conflict("the same SelfType", 0, self_(1), self_(1))
# Projections are compared as wholes: Unknown inside one does not help.
conflict("equal projections", 0, proj(U, nom(1, [U], [(2, E)]), 3, inf(0)), proj(U, nom(1, [U], [(2, E)]), 3, inf(0)))
conflict("slip: entering projections, receiver", 1, proj(U, nom(1), 3), proj(I32, nom(1), 3))
conflict("slip: entering projections, interface argument", 1, proj(I32, nom(1, [U]), 3), proj(I32, nom(1, [I32]), 3))
conflict("slip: entering projections, interface member", 1,
         proj(I32, nom(1, [], [(0, U)]), 3), proj(I32, nom(1, [], [(0, I8)]), 3))
conflict("slip: entering projections, argument", 1, proj(I32, nom(1), 3, U), proj(I32, nom(1), 3, I32))
conflict("projections that differ in the member", 1, proj(I32, nom(1), 3), proj(I32, nom(1), 4))
conflict("projections that differ in an Inference id", 1, proj(inf(0), nom(1), 3), proj(inf(1), nom(1), 3))
conflict("projection and Unknown", 0, proj(I32, nom(1), 3), U)
conflict("projection and another kind", 1, proj(I32, nom(1), 3), I32)

# --------------------------------------------------------------- Order 10


def weaken(comment, value, term, target):
    case("10 " + comment, "%02x" % value, "0a" + term + target)


weaken("marked line: Mutable Set weakens to ReadOnly", 1, set_(RW, I32), set_(RO, I32))
weaken("marked line: not back", 0, set_(RO, I32), set_(RW, I32))
weaken("Mutable to Mutable does not weaken", 0, set_(RW, I32), set_(RW, I32))
weaken("ReadOnly to ReadOnly does not weaken", 0, set_(RO, I32), set_(RO, I32))
weaken("Mutable Map", 1, map_(RW, I32, I64), map_(RO, I32, I64))
weaken("Map, not back", 0, map_(RO, I32, I64), map_(RW, I32, I64))
weaken("Map with another value", 0, map_(RW, I32, I64), map_(RO, I32, I8))
weaken("Map with another key", 0, map_(RW, I32, I64), map_(RO, I8, I64))
weaken("Set to Map", 0, set_(RW, U), map_(RO, U, U))
weaken("Map to Set", 0, map_(RW, U, U), set_(RO, U))
weaken("Mutable Reference to Shared", 1, ref(MUT, I32), ref(SHARED, I32))
weaken("Shared Reference to Mutable", 0, ref(SHARED, I32), ref(MUT, I32))
weaken("Mutable Reference to Mutable", 0, ref(MUT, I32), ref(MUT, I32))
weaken("Shared Reference to Shared", 0, ref(SHARED, I32), ref(SHARED, I32))
weaken("Reference with another target", 0, ref(MUT, I32), ref(SHARED, I64))
weaken("Reference with an Unknown target", 1, ref(MUT, U), ref(SHARED, I64))
weaken("Set with an Unknown part", 1, set_(RW, I32), set_(RO, inf(7)))
weaken("Set with another part", 0, set_(RW, I32), set_(RO, I64))
weaken("only the outer access weakens", 0, set_(RW, set_(RW, I32)), set_(RO, set_(RO, I32)))
weaken("the inner access stays", 1, set_(RW, set_(RW, I32)), set_(RO, set_(RW, I32)))
weaken("no access of a Set below a Reference", 0, ref(MUT, set_(RW, I32)), ref(SHARED, set_(RO, I32)))
weaken("a Reference to a Mutable Set", 1, ref(MUT, set_(RW, I32)), ref(SHARED, set_(RW, I32)))
weaken("no weakening below an Array", 0, arr(set_(RW, I32)), arr(set_(RO, I32)))
weaken("Mutable Reference to ReadOnly Set", 0, ref(MUT, U), set_(RO, U))
weaken("Mutable Set to Shared Reference", 0, set_(RW, U), ref(SHARED, U))
weaken("Mutable Set to Unknown", 0, set_(RW, I32), U)
weaken("Unknown to ReadOnly Set", 0, U, set_(RO, I32))
weaken("equal builtins", 0, I32, I32)

# --------------------------------------------------------------- Order 11


def recover(comment, value, left, right):
    case("11 " + comment, value, "0b" + left + right)


recover("Unknown", I32, U, I32)
recover("Error", I32, E, I32)
recover("Unknown from Error", U, U, E)
recover("Error from Unknown", E, E, U)
recover("Unknown from Inference", inf(3), U, inf(3))
recover("Inference is never replaced", inf(3), inf(3), I32)
recover("Inference from Unknown", inf(3), inf(3), U)
recover("what is known stays", I32, I32, I64)
recover("known from Unknown", I32, I32, U)
recover("a whole term is taken, its Unknown too", tup(U, I32), E, tup(U, I32))
recover("Array", arr(I32), arr(U), arr(I32))
recover("Iter", iter_(I32), iter_(U), iter_(I32))
recover("Iter from Array", iter_(U), iter_(U), arr(I32))
recover("access of Set is ignored, the left one stays", set_(RO, I32), set_(RO, U), set_(RW, I32))
recover("access of Map is ignored, the left one stays", map_(RW, I32, I64), map_(RW, U, E), map_(RO, I32, I64))
recover("Map: one of the two", map_(RW, I32, I64), map_(RW, I32, E), map_(RW, I8, I64))
recover("Set from Map", set_(RO, U), set_(RO, U), map_(RO, I32, I32))
recover("access of Reference counts", ref(MUT, U), ref(MUT, U), ref(SHARED, I32))
recover("Reference", ref(MUT, I32), ref(MUT, U), ref(MUT, I32))
recover("Range", range_(1, I32), range_(1, U), range_(1, I32))
recover("Range kinds differ", range_(1, U), range_(1, U), range_(2, I32))
recover("Tuple, each part by itself", tup(I32, I64, inf(0), U), tup(U, I64, inf(0), U), tup(I32, I8, I8, E))
recover("Tuples of different length", tup(U), tup(U), tup(I32, I32))
recover("Function", fun([I32, I8], I64), fun([U, I8], E), fun([I32, I32], I64))
recover("Functions with different counts", fun([U], U), fun([U], U), fun([], I32))
for name, make in (("NativeObject", native), ("Struct", struct), ("Enum", enum), ("Trait", trait)):
    recover(name, make(1, [I32, I8], [(2, I64), (3, I8)]), make(1, [U, I8], [(2, E), (3, I8)]),
            make(1, [I32, I32], [(2, I64), (3, U)]))
    recover(name + ": other members, arguments recovered", make(1, [I32], [(2, U)]), make(1, [U], [(2, U)]),
            make(1, [I32], [(3, I32)]))
    recover(name + ": a member more, arguments recovered", make(1, [I32], [(2, U)]), make(1, [U], [(2, U)]),
            make(1, [I32], [(2, I32), (3, I32)]))
    recover(name + ": declarations differ", make(1, [U], [(2, U)]), make(1, [U], [(2, U)]), make(2, [I32], [(2, I32)]))
    recover(name + ": argument counts differ", make(1, [U], [(2, U)]), make(1, [U], [(2, U)]),
            make(1, [I32, I32], [(2, I32)]))
recover("Struct from Enum", struct(1, [U]), struct(1, [U]), enum(1, [I32]))
recover("slip: entering projections", proj(U, nom(1, [U], [(2, U)]), 3, U), proj(U, nom(1, [U], [(2, U)]), 3, U),
        proj(I32, nom(1, [I32], [(2, I32)]), 3, I32))
recover("Unknown from a projection", proj(U, nom(1), 3), U, proj(U, nom(1), 3))

# --------------------------------------------------------------- Order 12


def instantiate(comment, value, substitution, term):
    case("12 " + comment, value, "0c" + substitution + term)


TWO = subst([(0, 0, I32), (0, 1, I64)], [(0, F32), (1, F64)])
instantiate("Generic", I32, TWO, G)
instantiate("the other position", I64, TWO, H)
instantiate("another owner", gen(1, 0), TWO, gen(1, 0))
instantiate("another position", gen(0, 2), TWO, gen(0, 2))
instantiate("SelfType", F32, TWO, self_(0))
instantiate("SelfType of another owner", self_(2), TWO, self_(2))
instantiate("no entry at all", tup(G, S), NONE, tup(G, S))
instantiate("Generic and SelfType in one term", fun([I32, F64], map_(RO, I64, F32)), TWO,
            fun([G, self_(1)], map_(RO, H, S)))
instantiate("Inference stays", inf(MOST), TWO, inf(MOST))
instantiate("a later entry replaces an earlier one", I64, subst([(0, 0, I32), (0, 1, I8), (0, 0, I64)]), G)
instantiate("a later receiver replaces an earlier one", I64, subst([], [(0, I32), (1, I8), (0, I64)]), S)
instantiate("slip: following an inserted term", tup(H, arr(H)), subst([(0, 0, H), (0, 1, I32)]), tup(G, arr(G)))
instantiate("slip: following an inserted term inside", tup(tup(H, S), I32), subst([(0, 0, tup(H, S)), (0, 1, I32)], [(0, I8)]),
            tup(G, H))
instantiate("slip: following an inserted receiver", arr(G), subst([(0, 0, I32)], [(0, arr(G))]), S)
instantiate("a Generic replaced by a term that contains it", arr(G), subst([(0, 0, arr(G))]), G)
instantiate("a Generic is not found as a SelfType", tup(G, I32), subst([], [(0, I32)]), tup(G, S))
instantiate("a SelfType is not found as a Generic", tup(I32, S), subst([(0, 0, I32)]), tup(G, S))
instantiate("largest owner and position", I32, subst([(MOST, MOST, I32)]), gen(MOST, MOST))
for place, put in PLACES:
    instantiate("in its place: " + place, put(I32), subst([(0, 0, I32)]), put(G))

# --------------------------------------------------------------- Order 13


def context(comment, value, substitution, parameters, term):
    case("13 " + comment, value, "0d" + substitution + parameters + term)


context("the substitution is tried first", tup(I32, U), subst([(0, 0, I32)]), params((0, 0), (0, 1)), tup(G, H))
context("a parameter without entry becomes Unknown", U, NONE, params((0, 1), (0, 0)), G)
context("neither entry nor parameter", gen(1, 0), subst([(0, 0, I32)]), params((0, 1), (2, 0)), gen(1, 0))
context("receivers are never tried", tup(S, I32), subst([(0, 0, I32)], [(0, I64)]), params((0, 0)), tup(S, G))
context("an inserted term is not looked at again", tup(H, U), subst([(0, 0, H)]), params((0, 1)), tup(G, H))
context("a later entry replaces an earlier one", I64, subst([(0, 0, I32), (0, 0, I64)]), params(), G)
context("no parameters", tup(G, I32), subst([(0, 1, I32)]), params(), tup(G, H))
context("a parameter named twice", U, NONE, params((0, 0), (0, 0)), G)
for place, put in PLACES[-4:]:
    context("in its place: " + place, put(U), NONE, params((0, 0)), put(G))

# --------------------------------------------------------------- Order 14


def with_self(comment, value, owner, new, term):
    case("14 " + comment, value, "0e" + num(owner) + new + term)


with_self("SelfType of the owner", I32, 5, I32, self_(5))
with_self("SelfType of another owner", self_(6), 5, I32, self_(6))
with_self("both", tup(I32, self_(6)), 5, I32, tup(self_(5), self_(6)))
with_self("the replacement is not looked at again", arr(arr(self_(5))), 5, arr(self_(5)), arr(self_(5)))
with_self("Generic stays", gen(5, 5), 5, I32, gen(5, 5))
with_self("Host stays", host(5), 5, I32, host(5))
for place, put in PLACES[-4:]:
    with_self("in its place: " + place, put(F64), 5, F64, put(self_(5)))

# --------------------------------------------------------------- Order 15
# Never, integer, concrete, unresolved, contains Unknown, contains SelfType,
# contains projection.


def ask(comment, value, term):
    case("15 " + comment, value, "0f" + term)


ask("Reference", "00 00 01 00 00 00 00", ref(MUT, I32))
ask("Inference", "00 00 00 01 01 00 00", inf(0))
ask("Unknown", "00 00 00 01 01 00 00", U)
ask("Error is unresolved but not Unknown", "00 00 00 01 00 00 00", E)
for code in range(32):
    ask("Builtin %d" % code, ("01 00" if code == 10 else "00 01" if code < 8 else "00 00") + "01 00 00 00 00", builtin(code))
ask("empty Tuple", "00 00 01 00 00 00 00", tup())
ask("Tuple of Never", "00 00 01 00 00 00 00", tup(NEVER))
ask("Tuple of an integer", "00 00 01 00 00 00 00", tup(I32))
ask("Function", "00 00 01 00 00 00 00", fun([I32], I32))
ask("Struct", "00 00 01 00 00 00 00", struct(1, [I32], [(2, I32)]))
ask("Host", "00 00 01 00 00 00 00", host(10))
ask("Generic is not concrete", "00 00 00 00 00 00 00", gen(0, 10))
ask("SelfType", "00 00 00 00 00 01 00", self_(10))
ask("a projection of concrete parts", "00 00 00 00 00 00 01", proj(I32, nom(1, [I32], [(2, I32)]), 3, I32))
ask("marked line: a projection with receiver Unknown", "00 00 00 01 00 00 01", proj(U, nom(0), 0))
ask("a projection with receiver Inference, below an Array", "00 00 00 01 00 00 01", arr(proj(inf(0), nom(0), 0)))
ask("Unknown beside a projection", "00 00 00 01 01 00 01", tup(U, proj(I32, nom(0), 0)))
ask("Error beside a projection with Unknown", "00 00 00 01 00 00 01", tup(E, proj(U, nom(0), 0)))
for place, put in PLACES:
    # contains_unknown does not enter a projection; the others do.
    inside = place.startswith("Projection")
    last = "01" if inside else "00"
    ask("Unknown in its place: " + place, "00 00 00 01" + ("00" if inside else "01") + "00" + last, put(U))
    ask("Error in its place: " + place, "00 00 00 01 00 00" + last, put(E))
    ask("SelfType in its place: " + place, "00 00 00 00 00 01" + last, put(S))
    ask("a projection in its place: " + place, "00 00 00 00 00 00 01", put(proj(I8, nom(0), 0)))
    ask("Generic in its place: " + place, "00 00 00 00 00 00" + last, put(G))

# --------------------------------------------------------------- Order 16


def resolved(comment, value, parameters, term):
    case("16 " + comment, "%02x" % value, "10" + parameters + term)


resolved("builtin, no parameters", 1, params(), I32)
resolved("Generic that is a parameter", 1, params((1, 0), (0, 0)), G)
resolved("Generic of another owner", 0, params((1, 0)), G)
resolved("Generic of another position", 0, params((0, 1)), G)
resolved("no parameters", 0, params(), G)
resolved("SelfType", 0, params((0, 0)), S)
resolved("Inference", 0, params((0, 0)), inf(0))
resolved("Unknown", 0, params((0, 0)), U)
resolved("Error", 0, params((0, 0)), E)
resolved("one of two parts is not", 0, params((0, 0)), tup(G, H))
resolved("a projection, no parameters", 0, params(), proj(I32, nom(1), 2))
resolved("a projection, with a parameter it does not need", 1, params((7, 7)), proj(I32, nom(1), 2))
resolved("a projection of parameters", 1, params((0, 0)), proj(G, nom(1, [G], [(2, G)]), 3, G))
for place, put in PLACES:
    resolved("Generic in its place: " + place, 1, params((0, 0)), put(G))
    resolved("another Generic in its place: " + place, 0, params((0, 0)), put(H))
resolved("a projection inside a projection", 1, params((0, 0)), proj(proj(G, nom(1), 2), nom(1), 2))

# --------------------------------------------------------------- Order 17


def satisfy(comment, value, nominal, required, receiver=I32):
    case("17 " + comment, value, "11" + nominal + required + receiver)


satisfy("equal nominals", "01 01", nom(1, [I32], [(2, I64)]), nom(1, [I32], [(2, I64)]))
satisfy("a known member more is allowed", "01 01", nom(1, [I32], [(2, I64), (3, U)]), nom(1, [I32], [(3, U)]))
satisfy("a required member more is not", "00 00", nom(1, [], [(2, I64)]), nom(1, [], [(2, I64), (3, I8)]))
satisfy("declarations differ", "00 00", nom(1), nom(2))
satisfy("arguments differ", "00 00", nom(1, [I32]), nom(1, [I64]))
satisfy("argument counts differ", "00 00", nom(1, [I32]), nom(1))
satisfy("a member's values differ", "00 00", nom(1, [], [(2, I64)]), nom(1, [], [(2, I8)]))
satisfy("equality, not recovery: Unknown", "00 00", nom(1, [], [(2, U)]), nom(1, [], [(2, I8)]))
satisfy("access counts", "00 00", nom(1, [], [(2, set_(RO, I8))]), nom(1, [], [(2, set_(RW, I8))]))
T = gen(9, 0)
satisfy("a reflexive projection", "00 01", nom(1), nom(1, [], [(2, proj(T, nom(1), 2))]), T)
satisfy("a reflexive projection, another member known", "00 01", nom(1, [I8], [(3, I32)]),
        nom(1, [I8], [(2, proj(T, nom(1, [I8], [(3, I32)]), 2)), (3, I32)]), T)
satisfy("a reflexive projection, the member known as something else", "00 01", nom(1, [], [(2, I8)]),
        nom(1, [], [(2, proj(T, nom(1), 2))]), T)
satisfy("a projection that is the known value", "01 01", nom(1, [], [(2, proj(U, nom(5), 6))]),
        nom(1, [], [(2, proj(U, nom(5), 6))]), T)
satisfy("a reflexive projection with another receiver", "00 00", nom(1), nom(1, [], [(2, proj(I32, nom(1), 2))]), T)
satisfy("a reflexive projection of another member", "00 00", nom(1), nom(1, [], [(2, proj(T, nom(1), 3))]), T)
satisfy("a reflexive projection with an argument", "00 00", nom(1), nom(1, [], [(2, proj(T, nom(1), 2, I32))]), T)
satisfy("a reflexive projection of another interface", "00 00", nom(1), nom(1, [], [(2, proj(T, nom(3), 2))]), T)
satisfy("a reflexive projection whose interface asks more", "00 00", nom(1),
        nom(1, [], [(2, proj(T, nom(1, [], [(4, I8)]), 2))]), T)
# Inside, satisfies is asked, not satisfies_for.
satisfy("a reflexive projection inside a reflexive projection", "00 00", nom(1),
        nom(1, [], [(2, proj(T, nom(1, [], [(2, proj(T, nom(1), 2))]), 2))]), T)
satisfy("reflexive, but the declarations differ", "00 00", nom(1), nom(3, [], [(2, proj(T, nom(1), 2))]), T)
satisfy("reflexive, but the arguments differ", "00 00", nom(1, [I8]), nom(1, [I32], [(2, proj(T, nom(1, [I8]), 2))]), T)
satisfy("one reflexive, one not given", "00 00", nom(1), nom(1, [], [(2, proj(T, nom(1), 2)), (3, I8)]), T)
satisfy("two reflexive members", "00 01", nom(1), nom(1, [], [(2, proj(T, nom(1), 2)), (3, proj(T, nom(1), 3))]), T)

# --------------------------------------------------------------- Order 18
# The value is 00, or 01 and a term.


def family(comment, value, parameters, term, substitution, *arguments):
    case("18 " + comment, value, "12" + parameters + term + substitution + seq(*arguments))


family("one parameter", "01" + arr(I32), params((0, 0)), arr(G), NONE, I32)
family("fewer arguments than parameters", "00", params((0, 0), (0, 1)), arr(G), NONE, I32)
family("more arguments than parameters", "00", params((0, 0)), arr(G), NONE, I32, I32)
family("arguments without parameters", "00", params(), I32, NONE, I32)
family("no parameters, no arguments", "01" + tup(I32, I64, H), params(), tup(G, S, H),
       subst([(0, 0, I32)], [(0, I64)]))
family("an argument replaces the outer entry", "01" + tup(I64, I8), params((0, 0)), tup(G, H),
       subst([(0, 0, I32), (0, 1, I8)]), I64)
family("a later argument replaces an earlier one", "01" + I64, params((0, 0), (0, 0)), G, NONE, I32, I64)
family("a later outer entry replaces an earlier one", "01" + tup(I64, I8), params((0, 1)), tup(G, H),
       subst([(0, 0, I32), (0, 1, F64), (0, 0, I64)]), I8)
family("arguments in order", "01" + tup(I64, I32), params((0, 1), (0, 0)), tup(G, H), NONE, I32, I64)
family("outer receivers", "01" + tup(I32, F64), params((0, 0)), tup(G, S), subst([], [(0, F64)]), I32)
family("an argument is not substituted", "01" + tup(H, I8), params((0, 0)), tup(G, H), subst([(0, 1, I8)]), H)
family("an argument with SelfType is not substituted", "01" + S, params((0, 0)), G, subst([], [(0, I8)]), S)
family("in a projection", "01" + proj(I32, nom(1, [I32], [(2, I32)]), 3, I32), params((0, 0)),
       proj(G, nom(1, [G], [(2, G)]), 3, G), NONE, I32)

# ------------------------------------------------------- Orders 19 and 20


def associated(comment, value, term, interface, owner):
    case("19 " + comment, value, "13" + term + interface + owner)


def normalise(comment, value, term, *rules):
    case("20 " + comment, value, "14" + seq(*rules) + term)


def either(comment, value, term):
    """The same for both: order 19 with an interface that stands nowhere, order 20 without rules."""
    associated(comment, value, term, nom(99), I32)
    normalise(comment, value, term)


P = proj(I32, nom(1), 2)                     # nothing known of it
Q = proj(I32, nom(8, [], [(0, F64)]), 0)     # the interface's own member

either("no projection", tup(I32, U), tup(I32, U))
either("a projection nothing is known of", P, P)
either("the interface's own member", F64, Q)
either("the interface's own member, below", arr(F64), arr(Q))
either("the interface has another member", proj(I32, nom(8, [], [(0, F64)]), 1), proj(I32, nom(8, [], [(0, F64)]), 1))
either("with an argument the own member is not tried", proj(I32, nom(8, [], [(0, F64)]), 0, I8),
       proj(I32, nom(8, [], [(0, F64)]), 0, I8))
either("a Trait receiver's own member", F64, proj(trait(1, [], [(2, F64)]), nom(1), 2))
either("a Trait receiver's own member, another declaration", F64, proj(trait(3, [], [(2, F64)]), nom(1), 2))
either("a Struct receiver's own member is not tried", proj(struct(1, [], [(2, F64)]), nom(1), 2),
       proj(struct(1, [], [(2, F64)]), nom(1), 2))
either("a Trait receiver without that member", proj(trait(1, [], [(3, F64)]), nom(1), 2),
       proj(trait(1, [], [(3, F64)]), nom(1), 2))
either("with an argument a Trait receiver's own is not tried", proj(trait(1, [], [(2, F64)]), nom(1), 2, I8),
       proj(trait(1, [], [(2, F64)]), nom(1), 2, I8))
either("the interface's own before the Trait receiver's", I8, proj(trait(1, [], [(2, F64)]), nom(1, [], [(2, I8)]), 2))
either("an own member that is a projection", F64, proj(I32, nom(7, [], [(0, Q)]), 0))
either("a Trait receiver that is an own member", F64,
       proj(proj(I32, nom(1, [], [(0, trait(3, [], [(2, F64)]))]), 0), nom(1), 2))
either("children of a projection that stays", proj(F64, nom(1, [F64], [(3, F64)]), 2, F64),
       proj(Q, nom(1, [Q], [(3, Q)]), 2, Q))
for place, put in PLACES:
    normalise("in its place: " + place, put(F64), put(Q))

# Depth. A term with any projection is cut at depth 64 in all its branches.
either("63 Arrays over a projection", arr(P, 63), arr(P, 63))
either("64 Arrays over a projection: its receiver is at depth 65", arr(proj(E, nom(1), 2), 64), arr(P, 64))
either("65 Arrays over a projection: it is at depth 65", arr(E, 65), arr(P, 65))
either("a branch of 63 Arrays without projection, at depth 64", tup(P, arr(I32, 63)), tup(P, arr(I32, 63)))
either("a branch of 64 Arrays without projection, at depth 65", tup(P, arr(E, 64)), tup(P, arr(I32, 64)))
either("199 Arrays without projection", arr(I32, 199), arr(I32, 199))
V = proj(I32, nom(8, [], [(0, arr(F64))]), 0)
either("an own member at depth 63, its part at 64", arr(arr(F64), 62), arr(V, 62))
# At 63 the member is already cut where it stands, at depth 64 and 65.
either("an own member whose part is at depth 65", arr(arr(E), 63), arr(V, 63))

# Rules. P1 to P5 are projections of I32 with declarations 1 to 5.


def p(declaration):
    return proj(I32, nom(declaration), 0)


def to(declaration, value):
    """A rule for p(declaration)."""
    return rule(nom(declaration), I32, 0, [], value)


normalise("a rule fires", F64, p(1), to(1, F64))
normalise("a rule fires below", tup(F64, set_(RW, F64)), tup(p(1), set_(RW, p(1))), to(1, F64))
normalise("the first rule that is equal", F64, p(1), to(2, I8), to(1, F64), to(1, I8))
normalise("the value is walked", tup(F64, I8), p(1), to(2, F64), to(1, tup(p(2), I8)))
normalise("a rule before the walk of the value", arr(proj(F64, nom(1), 0)), p(1), to(1, arr(proj(F64, nom(1), 0))))
normalise("own member before the rules", F64, Q, rule(nom(8, [], [(0, F64)]), I32, 0, [], I8))
normalise("a Trait receiver's own before the rules", F64, proj(trait(3, [], [(0, F64)]), nom(1), 0),
          rule(nom(1), trait(3, [], [(0, F64)]), 0, [], I8))
normalise("with an argument the rules answer, not the own member", I8, proj(I32, nom(8, [], [(0, F64)]), 0, I32),
          rule(nom(8, [], [(0, F64)]), I32, 0, [I32], I8))
normalise("with an argument the rules answer, not the Trait receiver's", I8, proj(trait(3, [], [(0, F64)]), nom(1), 0, I32),
          rule(nom(1), trait(3, [], [(0, F64)]), 0, [I32], I8))
normalise("a Trait receiver without the member: the rules", I8, proj(trait(3), nom(1), 0), rule(nom(1), trait(3), 0, [], I8))
FULL = nom(1, [I32, I64], [(2, I8), (3, F32)])
R = struct(4, [I32])
WHOLE = proj(R, FULL, 5, I8, F32)
normalise("a rule with all parts", tup(), WHOLE, rule(FULL, R, 5, [I8, F32], tup()))
for what, text in (
        ("declaration", rule(nom(2, [I32, I64], [(2, I8), (3, F32)]), R, 5, [I8, F32], tup())),
        ("first interface argument", rule(nom(1, [I64, I64], [(2, I8), (3, F32)]), R, 5, [I8, F32], tup())),
        ("last interface argument", rule(nom(1, [I32, I32], [(2, I8), (3, F32)]), R, 5, [I8, F32], tup())),
        ("count of interface arguments", rule(nom(1, [I32], [(2, I8), (3, F32)]), R, 5, [I8, F32], tup())),
        ("interface member name", rule(nom(1, [I32, I64], [(2, I8), (4, F32)]), R, 5, [I8, F32], tup())),
        ("interface member value", rule(nom(1, [I32, I64], [(2, I8), (3, F64)]), R, 5, [I8, F32], tup())),
        ("count of interface members", rule(nom(1, [I32, I64], [(2, I8)]), R, 5, [I8, F32], tup())),
        ("receiver", rule(FULL, struct(4, [I64]), 5, [I8, F32], tup())),
        ("receiver, another kind", rule(FULL, enum(4, [I32]), 5, [I8, F32], tup())),
        ("receiver Unknown", rule(FULL, U, 5, [I8, F32], tup())),
        ("member", rule(FULL, R, 6, [I8, F32], tup())),
        ("first argument", rule(FULL, R, 5, [I32, F32], tup())),
        ("last argument", rule(FULL, R, 5, [I8, F64], tup())),
        ("fewer arguments", rule(FULL, R, 5, [I8], tup())),
        ("more arguments", rule(FULL, R, 5, [I8, F32, I8], tup())),
        ("no arguments", rule(FULL, R, 5, [], tup()))):
    normalise("nearly a rule: " + what, WHOLE, WHOLE, text)
    normalise("nearly a rule, then one: " + what, F64, WHOLE, text, rule(FULL, R, 5, [I8, F32], F64))
normalise("access counts in a rule", proj(set_(RO, I8), nom(1), 0), proj(set_(RO, I8), nom(1), 0),
          rule(nom(1), set_(RW, I8), 0, [], I32))
normalise("a rule for the walked receiver", I8, proj(Q, nom(1), 0), rule(nom(1), F64, 0, [], I8))
normalise("a rule's own parts are not walked", proj(F64, nom(1), 0), proj(Q, nom(1), 0), rule(nom(1), Q, 0, [], I8))
normalise("a rule for walked arguments and interface", I8, proj(I32, nom(1, [Q], [(4, Q)]), 0, Q),
          rule(nom(1, [F64], [(4, F64)]), I32, 0, [F64], I8))
normalise("a value equal to the projection", tup(E, I8), tup(p(1), I8), to(1, p(1)))
# The projection at depth 64 has its receiver cut to Error, so no rule is
# equal and it stays.
normalise("two rules in a circle end at depth 64", tup(proj(E, nom(2), 0), I8), tup(p(1), I8), to(1, p(2)), to(2, p(1)))
normalise("a rule whose value contains the projection", arr(proj(E, nom(1), 0), 32), p(1), to(1, arr(p(1))))
normalise("the same one level lower: the projection itself is at depth 65", arr(E, 33), arr(p(1)), to(1, arr(p(1))))
normalise("a rule for the cut receiver: its value is at depth 65", arr(E, 32), p(1), to(1, arr(p(1))),
          rule(nom(1), E, 0, [], arr(I8)))
normalise("rules and no projection", arr(I32), arr(I32), to(1, I8))
# Each circle of one costs two visits. If its value were walked, 130 of them
# would use all visits and the last part would be Error.
normalise("a value equal to the projection is not walked", tup(*[tup(*[E] * 13)] * 10 + [I8]), tup(*[p(2)] * 10 + [I8]),
          to(1, p(1)), to(2, tup(*[p(1)] * 13)))

# Order 19
K = nom(1, [], [(0, F64), (1, arr(I8))])
associated("the interface's output", F64, p(1), K, I32)
associated("another output, below", arr(arr(I8)), arr(proj(I32, nom(1), 1)), K, I32)
associated("another declaration", p(2), p(2), K, I32)
associated("another receiver", proj(I64, nom(1), 0), proj(I64, nom(1), 0), K, I32)
associated("an argument", proj(I32, nom(1), 0, I8), proj(I32, nom(1), 0, I8), K, I32)
associated("only the declaration must be equal", F64, proj(I32, nom(1, [I8], [(7, I8)]), 0), K, I32)
associated("the projection's own member first", I8, proj(I32, nom(1, [], [(0, I8)]), 0), K, I32)
associated("no output: the interface is put in", proj(I32, K, 2), proj(I32, nom(1), 2), K, I32)
associated("no output, the interface is equal", proj(I32, K, 2), proj(I32, K, 2), K, I32)
associated("the output is walked", tup(F64), p(1), nom(1, [], [(0, tup(Q))]), I32)
associated("an output that is the projection itself stays", tup(p(1), I8), tup(p(1), I8), nom(1, [], [(0, p(1))]), I32)
# The 65th projection, at depth 64, has its receiver cut to Error.
associated("an output that leads back by another member", proj(E, nom(1), 0), p(1),
           nom(1, [], [(0, proj(I32, nom(1), 1)), (1, p(1))]), I32)
associated("the walked receiver is compared", F64, proj(Q, nom(1), 0), nom(1, [], [(0, F64)]), F64)
associated("the owner is not walked", proj(F64, nom(1), 0), proj(Q, nom(1), 0), nom(1, [], [(0, F64)]), Q)
# The interface put in is walked, so it differs from the given one again. At
# depth 64 the receiver is cut to Error and is no longer the owner.
associated("an interface with a projection inside ends at depth 64", tup(proj(E, nom(1, [], [(0, E)]), 2), I8),
           tup(proj(I32, nom(1), 2), I8), nom(1, [], [(0, Q)]), I32)
associated("the interface put in has the projection's receiver", proj(trait(3), nom(1, [I8]), 2), proj(trait(3), nom(1), 2),
           nom(1, [I8]), trait(3))

# Visits and children. big(a) is a projection with an own member I32, whose
# receiver is a Tuple of a projections p(1). If each of these is replaced by a
# Tuple of n Unknown, it takes 4 + a (3 + n) visits, its own replacement among
# them, and meets 2 + a (2 + n) children.


def big(a):
    return proj(tup(*[p(1)] * a), nom(9, [], [(0, I32)]), 0)


def both(comment, outcome, term, where_20=None, where_19=MORE):
    """Order 20 with the rule p(1) -> WIDE, order 19 with that output for I32."""
    case("20 " + comment, outcome, "14" + seq(to(1, WIDE)) + term, where_20)
    case("19 " + comment, outcome, "13" + term + nom(1, [], [(0, WIDE)]) + I32, where_19)


WIDE = tup(*[U] * 289)
# In a Tuple of big(28) and t other parts: 1 + 4 + 28 * 292 = 8,181 visits
# before these parts, so 11 are left for them, and 1 + t + 2 + 28 * 291 =
# 8,151 + t children.
both("8,192 visits", tup(I32, *[U] * 11), tup(big(28), *[U] * 11), None, None)
both("the visit after the last", tup(I32, *[U] * 11 + [E]), tup(big(28), *[U] * 12), None, None)
both("8,192 children", tup(I32, *[U] * 11 + [E] * 30), tup(big(28), *[U] * 41), None, None)
both("8,193 children", 9, tup(big(28), *[U] * 42), None, None)
both("four visits are left for a projection with an own member", tup(I32, *[U] * 7 + [F64]), tup(big(28), *[U] * 7 + [Q]))
both("three visits are left: none for its replacement", tup(I32, *[U] * 8 + [E]), tup(big(28), *[U] * 8 + [Q]))
both("one visit is left: none for the receiver", tup(I32, *[U] * 10 + [proj(E, nom(7), 0)]), tup(big(28), *[U] * 10 + [p(7)]))
both("visits end inside a projection: arguments, receiver, members, then interface arguments",
     tup(I32, *[U] * 7 + [proj(I8, nom(7, [E], [(5, I8)]), 0, I8)]),
     tup(big(28), *[U] * 7 + [proj(I8, nom(7, [I8], [(5, I8)]), 0, I8)]))
both("visits end inside a projection: receiver before members",
     tup(I32, *[U] * 8 + [proj(I8, nom(7, [E], [(5, E)]), 0, I8)]),
     tup(big(28), *[U] * 8 + [proj(I8, nom(7, [I8], [(5, I8)]), 0, I8)]), MORE)
both("visits end inside a projection: arguments before the receiver",
     tup(I32, *[U] * 8 + [proj(E, nom(7, [E], [(5, E)]), 0, I8, I8)]),
     tup(big(28), *[U] * 8 + [proj(I8, nom(7, [I8], [(5, I8)]), 0, I8, I8)]))
both("visits end inside a Struct: members before arguments", tup(I32, *[U] * 8 + [struct(7, [E], [(5, I8), (6, I8)])]),
     tup(big(28), *[U] * 8 + [struct(7, [I8], [(5, I8), (6, I8)])]), MORE)
both("visits end inside a Function: parameters before the result", tup(I32, *[U] * 9 + [fun([I8], E)]),
     tup(big(28), *[U] * 9 + [fun([I8], I8)]), MORE)
both("visits end inside a Map: key before value", tup(I32, *[U] * 9 + [map_(RO, I8, E)]),
     tup(big(28), *[U] * 9 + [map_(RO, I8, I8)]), MORE)
# With 8,192 children counted, the last part got no visit.
both("children of a child without visit do not count", tup(I32, *[U] * 11 + [E] * 30),
     tup(big(28), *[U] * 40 + [tup(*[U] * 50)]))
# The last visit is spent on a Tuple of 31: 8,151 + 11 + 31 = 8,193.
both("the children of the term of the last visit count", 9, tup(big(28), *[U] * 10 + [tup(*[U] * 31)]))
both("the children of the term of the last visit, one fewer", tup(I32, *[U] * 10 + [tup(*[E] * 30)]),
     tup(big(28), *[U] * 10 + [tup(*[U] * 30)]))
# A visit at depth 64 counts its children, though all are cut. The outer
# Tuple has 2, the 63 Arrays have 63, big(27) has 2 + 27 * 291 = 7,859, and
# the inner Tuple has the rest of 8,192.
both("8,192 children, some of them cut by depth", tup(arr(tup(*[E] * 268), 63), I32), tup(arr(tup(*[U] * 268), 63), big(27)),
     MORE)
both("8,193 children, some of them cut by depth", 9, tup(arr(tup(*[U] * 269), 63), big(27)), MORE)
# All 8,192 visits end inside the receiver; then nothing else gets one.
case("20 visits end inside the receiver", tup(*[E] * 4),
     "14" + seq(to(1, tup(*[p(2)] * 20)), to(2, tup(*[U] * 14))) + tup(big(25), U, I32, Q))

# ----------------------------------------------------------------- Faults

# One order of each kind with every field, and its value.
SAMPLES = [
    (9, set_(1, U) + set_(1, I32), "00"),
    (10, map_(1, U, I32) + map_(0, I32, U), "01"),
    (11, tup(U, inf(MOST)) + tup(I32, I32), tup(I32, inf(MOST))),
    (12, subst([(0, 1, I32)], [(2, U)]) + tup(H, self_(2)), tup(I32, U)),
    (13, subst([(0, 1, I32)], [(2, U)]) + params((0, 0)) + tup(H, G), tup(I32, U)),
    (14, num(300) + arr(I32) + iter_(self_(300)), iter_(arr(I32))),
    (15, fun([inf(200)], S), "00 00 00 01 01 01 00"),
    (16, params((0, 0), (1, 200)) + gen(1, 200), "01"),
    (17, nom(1, [U], [(2, U)]) + nom(1, [U], [(2, U)]) + E, "01 01"),
    (18, params((0, 0)) + tup(G, H, S) + subst([(0, 1, U)], [(0, E)]) + seq(I32), "01" + tup(I32, U, E)),
    (19, proj(U, nom(1, [U], [(2, E)]), 3) + nom(1, [I8], [(3, I32)]) + U, I32),
    (20, seq(rule(nom(1, [U], [(2, E)]), inf(0), 3, [I8], I32)) + proj(inf(0), nom(1, [U], [(2, E)]), 3, I8), I32),
]
for kind, text, value in SAMPLES:
    whole = "%02x" % kind + text
    case("%d whole" % kind, value, whole)
    for length in range(1, len(bytes.fromhex(whole))):
        case("%d ends after %d bytes" % (kind, length), 1, bytes.fromhex(whole)[:length].hex())
    case("%d with a byte after its last field" % kind, 1, whole + "00")
    case("%d with a term after its last field" % kind, 1, whole + I32)
case("an empty order", 1, "")
for kind in (23, 29, 127, 128, 255):
    case("kind %d" % kind, 2, "%02x 02 02" % kind)
    case("kind %d alone" % kind, 2, "%02x" % kind)
case("the kind is a byte, not a number", 2, "89 00 02 02")

# Every field that is a term.
TERM_FIELDS = [
    ("9 left", "09 {} 02"), ("9 right", "09 02 {}"),
    ("10 left", "0a {} 02"), ("10 right", "0a 02 {}"),
    ("11 left", "0b {} 02"), ("11 right", "0b 04 00 {}"),
    ("12 entry", "0c 01 00 00 {} 00 02"), ("12 receiver", "0c 00 01 00 {} 02"), ("12 term", "0c 00 00 {}"),
    ("13 entry", "0d 01 00 00 {} 00 00 02"), ("13 receiver", "0d 00 01 00 {} 00 02"), ("13 term", "0d 00 00 00 {}"),
    ("14 replacement", "0e 00 {} 02"), ("14 term", "0e 00 02 {}"),
    ("15 term", "0f {}"), ("16 term", "10 00 {}"),
    ("17 argument", "11 00 01 {} 00 00 00 00 02"), ("17 member", "11 00 00 01 00 {} 00 00 00 02"),
    ("17 required argument", "11 00 00 00 00 01 {} 00 02"), ("17 required member", "11 00 00 00 00 00 01 00 {} 02"),
    ("17 receiver", "11 00 00 00 00 00 00 {}"),
    ("18 value", "12 00 {} 00 00 00"), ("18 entry", "12 00 02 01 00 00 {} 00 00"),
    ("18 receiver", "12 00 02 00 01 00 {} 00"), ("18 argument", "12 00 02 00 00 01 {}"),
    ("19 term", "13 {} 00 00 00 02"), ("19 interface argument", "13 02 00 01 {} 00 02"),
    ("19 interface member", "13 02 00 00 01 00 {} 02"), ("19 owner", "13 02 00 00 00 {}"),
    ("20 rule, interface argument", "14 01 00 01 {} 00 02 00 00 02 02"),
    ("20 rule, interface member", "14 01 00 00 01 00 {} 02 00 00 02 02"),
    ("20 rule, receiver", "14 01 00 00 00 {} 00 00 02 02"), ("20 rule, argument", "14 01 00 00 00 02 00 01 {} 02 02"),
    ("20 rule, value", "14 01 00 00 00 02 00 00 {} 02"), ("20 term", "14 00 {}"),
]
for field, text in TERM_FIELDS:
    case(field + ": tag 20", 2, text.format("14"))
    case(field + ": number not shortest", 3, text.format("10 80 00"))
    case(field + ": members not rising", 5, text.format("0d 00 00 02 01 02 01 02"))
    case(field + ": any Inference id", ACCEPTED, text.format(inf(MOST)), MORE)
    case(field + ": 200 levels", ACCEPTED, text.format(arr(I32, 199)), MORE)
    case(field + ": level 201", 4, text.format(arr(I32, 200)), MORE)
    case(field + ": level 201 before a tag that is not listed", 4, text.format(arr("14", 200)), MORE)
    case(field + ": level 201 before an early end", 4, text.split("{}")[0] + arr("", 200), MORE)
    case(field + ": a projection's contents at level 200", ACCEPTED,
         text.format(arr(proj(I8, nom(0, [I8], [(0, I8)]), 1, I8), 198)), MORE)
    for part in (proj(I8, nom(0, [I8]), 1), proj(I8, nom(0), 1), proj(I8, nom(0, [], [(0, I8)]), 1)):
        case(field + ": a projection's contents at level 201", 4, text.format(arr(part, 199)), MORE)
    # The other terms of these orders take at most three nodes.
    case(field + ": 2,040 nodes", ACCEPTED, text.format(tup(*[U] * 2039)), MORE)
    case(field + ": 2,049 nodes", 7, text.format(tup(*[U] * 2048)), MORE)
    case(field + ": 2,049 nodes, then an early end", 1, text.split("{}")[0] + tup(*[U] * 2048)[:-2], MORE)
    case(field + ": 2,049 nodes and a byte too many", 1, text.format(tup(*[U] * 2048)) + "02", MORE)
    case(field + ": 2,049 nodes, then a tag that is not listed", 2, text.format(tup(*[U] * 2048 + ["14"])), MORE)
for fault, refusal in (("access 2", "0b 02 02"), ("code 32", "04 20"), ("range kind 4", "08 04 02")):
    case("9 " + fault, 2, "09" + refusal + U)
    case("20 " + fault, 2, "14 00" + refusal)

# Every field that is a number: (comment, text, is a count).
NUMBER_FIELDS = [
    ("12 count of entries", "0c {}", True), ("12 owner of an entry", "0c 01 {} 00 02 00 02", False),
    ("12 position of an entry", "0c 01 00 {} 02 00 02", False), ("12 count of receivers", "0c 00 {}", True),
    ("12 owner of a receiver", "0c 00 01 {} 02 02", False),
    ("13 count of parameters", "0d 00 00 {}", True), ("13 owner of a parameter", "0d 00 00 01 {} 00 02", False),
    ("13 position of a parameter", "0d 00 00 01 00 {} 02", False), ("14 owner", "0e {} 02 02", False),
    ("16 count of parameters", "10 {}", True), ("16 owner of a parameter", "10 01 {} 00 02", False),
    ("16 position of a parameter", "10 01 00 {} 02", False),
    ("17 declaration", "11 {} 00 00 00 00 00 02", False), ("17 argument count", "11 00 {}", True),
    ("17 member count", "11 00 00 {}", True), ("17 member", "11 00 00 01 {} 02 00 00 00 02", False),
    ("17 required declaration", "11 00 00 00 {} 00 00 02", False), ("17 required argument count", "11 00 00 00 00 {}", True),
    ("17 required member count", "11 00 00 00 00 00 {}", True),
    ("17 required member", "11 00 00 00 00 00 01 {} 02 02", False),
    ("18 count of parameters", "12 {}", True), ("18 count of entries", "12 00 02 {}", True),
    ("18 count of receivers", "12 00 02 00 {}", True), ("18 count of arguments", "12 00 02 00 00 {}", True),
    ("19 declaration", "13 02 {} 00 00 02", False), ("19 argument count", "13 02 00 {}", True),
    ("19 member count", "13 02 00 00 {}", True), ("19 member", "13 02 00 00 01 {} 02 02", False),
    ("20 count of rules", "14 {}", True), ("20 declaration of a rule", "14 01 {} 00 00 02 00 00 02 02", False),
    ("20 argument count of a rule's interface", "14 01 00 {}", True),
    ("20 member count of a rule's interface", "14 01 00 00 {}", True),
    ("20 member of a rule's interface", "14 01 00 00 01 {} 02 02 00 00 02 02", False),
    ("20 member of a rule", "14 01 00 00 00 02 {} 00 02 02", False),
    ("20 argument count of a rule", "14 01 00 00 00 02 00 {}", True),
]
for field, text, is_count in NUMBER_FIELDS:
    case(field + ": not shortest", 3, text.format("80 00"))
    case(field + ": too large", 3, text.format("80 80 80 80 10"))
    case(field + ": largest", 1 if is_count else ACCEPTED, text.format("ff ff ff ff 0f"))
for field, text in (("17 nominal", "11 {} 00 00 00 02"), ("17 required", "11 00 00 00 {} 02"), ("19 interface", "13 02 {} 02"),
                    ("20 rule", "14 01 {} 02 00 00 02 02")):
    case(field + ": members fall", 5, text.format(nom(0, [], [(2, U), (1, U)])))
    case(field + ": a member repeats, before the fault in its term", 5, text.format(nom(0, [], [(1, U), (1, "14")])))
    case(field + ": a fault in the term before", 2, text.format(nom(0, [], [(1, "14"), (1, U)])))
    case(field + ": largest member", ACCEPTED, text.format(nom(MOST, [], [(0, U), (MOST, U)])))
case("12: a Generic's owner in the substitution may repeat", I32, "0c" + subst([(5, 5, I8), (5, 5, I32)]) + gen(5, 5))
case("18: the arity is looked at after reading: a fault in an argument", 2, "12" + params() + U + NONE + seq("14"))
case("18: the arity is looked at after reading: leftover bytes", 1, "12" + params() + U + NONE + seq(I32) + "00")

# 2,048 and 2,049 nodes spread over the fields of one order.
case("9 2,048 nodes in two terms", "00", "09" + tup(*[U] * 1023) * 2)
case("9 2,049 nodes in two terms", 7, "09" + tup(*[U] * 1024) + tup(*[U] * 1023))
for count, outcome in ((1545, "00"), (1546, 7)):
    # The value has 501 nodes, the entry and the receiver have one each.
    case("18 %d nodes in value, entry, receiver and arguments" % (503 + count), outcome,
         "12" + params((0, 0)) + tup(*[U] * 500) + subst([(0, 0, U)], [(0, I32)]) + seq(*[U] * count), MORE)
case("20 7 before 9", 7, "14" + seq(to(1, WIDE)) + tup(big(28), *[U] * 1800), MORE)
case("20 leftover bytes before 9", 1, "14" + seq(to(1, WIDE)) + tup(big(28), *[U] * 42) + "00", MORE)
# A bare nominal is no node; an interface belongs to its projection.
case("17 2,048 nodes, a bare nominal is none", "01 01", "11" + nom(0, [], [(0, tup(*[U] * 1022))]) + nom(0, [], [(0, tup(*[U] * 1022))])
     + arr(U), MORE)
case("17 2,049 nodes", 7, "11" + nom(0, [], [(0, tup(*[U] * 1022))]) + nom(0, [], [(0, tup(*[U] * 1022))])
     + arr(arr(U)), MORE)
case("20 2,048 nodes, rules among them", ACCEPTED, "14" + seq(*[to(1, U)] * 1023) + arr(U), MORE)
case("20 2,049 nodes, rules among them", 7, "14" + seq(*[to(1, U)] * 1023) + arr(arr(U)), MORE)

# Answers may be deeper and wider than what is read.
case("12 an answer of 399 levels", arr(I32, 398), "0c" + subst([(0, 0, arr(I32, 199))]) + arr(G, 199), MORE)
case("12 an answer of 10,000 nodes", tup(*[tup(*[U] * 99)] * 100), "0c" + subst([(0, 0, tup(*[U] * 99))]) + tup(*[G] * 100), MORE)
case("15 questions at level 200", "00 00 00 01 01 00 00", "0f" + arr(U, 199), MORE)


# ---------------------------------------------------------------- Running

def stated(outcome, body):
    """The answer, without its length."""
    if outcome == ACCEPTED:
        found = reference.answer(body)
        return found if found[0] == 0 else b"(outcome 0)"
    return bytes([outcome]) if isinstance(outcome, int) else b"\x00" + outcome


def check_stated():
    for comment, body, outcome in CASES + MORE:
        found, wanted = reference.answer(body), stated(outcome, body)
        if found != wanted:
            sys.exit("%s\n  order     %s\n  stated    %s\n  reference %s"
                     % (comment, body.hex(" ")[:300], wanted.hex(" ")[:300], found.hex(" ")[:300]))


def case_input():
    """The input with all CASES, and its answers as stated by hand."""
    check_stated()
    data = b"".join(framed(body) for _, body, _ in CASES)
    replies = b"".join(framed(stated(outcome, body)) for _, body, outcome in CASES)
    if len(data) > INPUT or len(replies) > OUTPUT:
        sys.exit("the cases take %d bytes, their answers %d" % (len(data), len(replies)))
    if reference.run(data) != replies:
        sys.exit("the reference does not answer the run as stated")
    return data, replies


def write(directory):
    data, replies = case_input()
    store(directory, data, replies)
    print("%d cases, %d bytes in, %d bytes out; %d more cases" % (len(CASES), len(data), len(replies), len(MORE)))


def listing():
    case_input()
    for comment, body, outcome in CASES + MORE:
        print("%s\n    %s\n    %s" % (comment, shortened(body.hex(" ")), shortened(reference.answer(body).hex(" "))))
    print("%d cases" % len(CASES + MORE))


def slips():
    from orders_slips import PLAIN, RUN_SLIPS, SLIPS
    check_stated()

    def finder(how):
        return next((comment for comment, body, outcome in CASES + MORE if reference.answer(body, how) != stated(outcome, body)), None)
    check_plain(PLAIN, finder)
    return check_slips({name: how for name, how in SLIPS.items() if name not in RUN_SLIPS}, finder)


if __name__ == "__main__":
    sys.exit(run_cases(__doc__, {"list": listing, "slips": slips}, {"write": write}))
