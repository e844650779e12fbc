"""Pairs whose resolved terms grow exponentially: sheets that pose chains of n variables and then one pair."""

import os
import sys

ROOT = os.path.dirname(os.path.dirname(os.path.abspath(__file__)))
sys.path.insert(0, os.path.join(ROOT, "tests"))

from orders_cases import I32, I64, arr, inf, num, tup  # noqa: E402
from terms_reference import framed  # noqa: E402

SIZES = (10, 20, 50, 100, 200, 500)
CHECKS = 100000


def order(text):
    return framed(bytes.fromhex(text))


def variables(count):
    return [order("00" + num(n) + "00") for n in range(count)]


def pair(left, right, checks=CHECKS):
    return order("04" + num(checks) + left + right)


def chain(first, count, end):
    """Variables from `first` on, each bound to a Tuple of the next one twice, the last to `end`."""
    doubled = [pair(inf(n), tup(inf(n + 1), inf(n + 1))) for n in range(first, first + count - 1)]
    return doubled + [pair(inf(first + count - 1), end)]


def twins(count, left, right):
    half = count // 2
    return variables(2 * half) + chain(0, half, left) + chain(half, half, right) + [pair(inf(0), inf(half))]


def equal(count):
    return twins(count, I32, I32)


def unequal(count):
    """As the Rust, order 4 checks every path: it ends when the checks are used up."""
    return twins(count, I32, I64)


def cyclic(count):
    """The first variable is asked for at the end of its own chain."""
    return variables(count + 1) + chain(0, count, arr(inf(count))) + [pair(inf(count), inf(0))]


def free(count):
    """A free variable is bound to the whole of a chain."""
    return variables(count + 1) + chain(0, count, I32) + [pair(inf(count), inf(0))]


def alias(count):
    """From the last to the first, each variable is posed against the next one, whose chain is followed: all are bound to the last. Then the first to a type."""
    return variables(count) + [pair(inf(n), inf(n + 1)) for n in range(count - 2, -1, -1)] + [pair(inf(0), I32)]


def rising(count):
    """Each variable is bound to the next one, from the first to the last, so that each binding moves the ends of all before it; then the first to a type."""
    return variables(count) + [pair(inf(n), inf(n + 1)) for n in range(count - 1)] + [pair(inf(0), I32)]


def star(count):
    """Each variable is bound to the last one, and then the first to a type, which moves the ends of all."""
    return variables(count) + [pair(inf(n), inf(count - 1)) for n in range(count - 1)] + [pair(inf(0), I32)]


def met_again(count, times):
    """The first variable of a chain of aliases that ends at a type is posed against the last one, again and again."""
    return rising(count) + [pair(inf(0), inf(count - 1))] * times


SHAPES = (("two equal chains", equal), ("two chains, unequal at the leaf, 100,000 checks", unequal), ("a chain that ends in itself", cyclic),
          ("a chain bound whole", free), ("aliases, falling", alias), ("aliases, rising", rising), ("aliases in a star", star))
