#!/usr/bin/env python3
"""Sheets carried out with one deliberate fault each; SLIPS gives them by name. slips.py says what for.

  python3 tests/sheet_slips.py [--sheets N] [--seed S]

shows for each slip the first random sheet that finds it, and ends with status
1 if one is not found. sheet_cases.py slips shows what the fixed cases find.

Slips that would go round in a circle answer at once what they would answer
if they came to an end: a solver without an occurs check says compatible and
does not bind.

No slip: occurrence before family (a number variable and a term around it
are incompatible either way), deferring a variable in the place of its end
(the chain leads there later too), and another order of U32, U64 and the small
types where a default looks for an admitted one: what ranges and their joins
admit has I32, I64 or nothing but U64.
"""

import sys

import orders_slips
import sheet_reference as reference
from orders_reference import BUILTIN, ENUM, ERROR, FUNCTION, HOST, INFERENCE, MAP, NOMINALS, PROJECTION, RANGE, REFERENCE, SET
from orders_reference import STRUCT, TUPLE, UNKNOWN, Orders
from sheet_reference import (
    CANCELLED, COMPATIBLE, ENTERED, F32, F64, FLOATS, INCOMPATIBLE, INTEGERS, NEVER, PAIRS, Fields, Node, Run, Sheet)
from slips import Registry
from terms_reference import Reader, Refused, number_bytes

SLIPS = Registry(Sheet)
slip, constant = SLIPS.slip, SLIPS.constant


# What the buyer sends back

@slip
class every_pair_compatible(Sheet):
    def constrain(self, checks, left, right):
        answer = super().constrain(checks, left, right)
        return COMPATIBLE if answer == INCOMPATIBLE else answer


@slip
class first_pair_only(Sheet):
    posed = False

    def constrain(self, checks, left, right):
        if self.posed:
            return COMPATIBLE
        self.posed = True
        return super().constrain(checks, left, right)


@slip
class binds_nothing(Sheet):
    def bind(self, variable, term):
        pass


@slip
class binds_without_telling_resolve(Sheet):
    def resolve_order(self, term):
        return self.shared(term)


@slip
class revision_counts_pairs(Sheet):
    pairs = 0

    def constrain(self, checks, left, right):
        self.pairs += 1
        return super().constrain(checks, left, right)

    def revision_order(self):
        return number_bytes(self.pairs)


@slip
class revision_counts_variables(Sheet):
    def revision_order(self):
        return number_bytes(self.issued())


@slip
class revision_without_defaults(Sheet):
    by_default = 0

    def numeric_default_order(self):
        before = self.revision
        answer = super().numeric_default_order()
        self.by_default += self.revision - before
        return answer

    def revision_order(self):
        return number_bytes(self.revision - self.by_default)


@slip
class revision_counts_changed_orders(Sheet):
    def constrain(self, checks, left, right):
        before = self.revision
        answer = super().constrain(checks, left, right)
        self.revision = min(self.revision, before + 1)
        return answer


@slip
class cancels_with_a_check_left(Sheet):
    def constrain(self, checks, left, right):
        return super().constrain(max(0, checks - 1), left, right)


@slip
class cancels_a_check_late(Sheet):
    def constrain(self, checks, left, right):
        return super().constrain(checks + 1, left, right)


@slip
class never_cancels(Sheet):
    def constrain(self, checks, left, right):
        return super().constrain(1 << 64, left, right)


@slip
class no_check_for_the_first_pair(Sheet):
    def constrain(self, checks, left, right):
        return super().constrain(max(1, checks), left, right)


@slip
class run_11_with_space_left(Sheet):
    def fitting(self, outcome, value, room):
        return super().fitting(outcome, value, room - 1)


@slip
class run_11_a_byte_late(Sheet):
    def fitting(self, outcome, value, room):
        return super().fitting(outcome, value, room + 1)


@slip
class refuses_everything(Sheet):
    def value(self, order):
        raise Refused(1)


# Slips that were met

constant("projections_entered", same_shape=lambda self, left, right: left.shape() == right.shape()
         if left.tag == PROJECTION else Sheet.same_shape(self, left, right))


@slip
class number_bound_to_a_tuple(Sheet):
    def admits(self, variable, term):
        return term.tag == TUPLE or super().admits(variable, term)


@slip
class number_bound_to_anything(Sheet):
    def admits(self, variable, term):
        return term.tag not in (INFERENCE, BUILTIN) or super().admits(variable, term)


@slip
class unknown_frozen_in_a_binding(Sheet):
    def recovers(self, term):
        return False


constant("error_frozen_in_a_binding", recovers=lambda self, term: self.has_tag(term, UNKNOWN),
         has_tag=lambda self, term, tag: term.tag == tag or any(self.has_tag(part, tag) for part in term.below))
constant("inserted_term_followed", PLAIN=orders_slips.SLIPS["an_inserted_term_is_followed"])
for each in ("conflicts_enter_projections", "weakens_inside", "depth_63", "depth_65", "branches_without_projection_not_walked"):
    # orders_slips.py has many more; these are on our list of what is easy to slip on.
    constant(each, PLAIN=orders_slips.SLIPS[each])


# Occurrence and recovery

@slip
class no_occurs_check(Sheet):
    def variable_met(self, variable, term):
        if self.occurs(variable, term) and not term.recovery and variable not in self.numeric:
            return ()
        return super().variable_met(variable, term)


@slip
class occurrence_in_a_projection_overlooked(Sheet):
    def outside(self, variable, term):
        if term.tag == PROJECTION:
            return False
        return term.tag == INFERENCE and term.parts[0] == variable or any(self.outside(variable, part) for part in term.below)

    def variable_met(self, variable, term):
        if self.occurs(variable, term) and not term.recovery and variable not in self.numeric and not self.outside(variable, term):
            return ()
        return super().variable_met(variable, term)


@slip
class occurs_before_recovery(Sheet):
    def variable_met(self, variable, term):
        return None if self.occurs(variable, term) else super().variable_met(variable, term)


@slip
class family_before_recovery(Sheet):
    def variable_met(self, variable, term):
        if variable in self.numeric and not self.admits(variable, term):
            return None
        return super().variable_met(variable, term)


@slip
class recovery_is_incompatible(Sheet):
    def variable_met(self, variable, term):
        return None if term.recovery else super().variable_met(variable, term)


@slip
class recovery_in_a_projection_overlooked(Sheet):
    def recovers(self, term):
        if term.tag == PROJECTION:
            return False
        return term.tag in (UNKNOWN, ERROR) or any(map(self.recovers, term.below))


@slip
class recovery_at_the_top_only(Sheet):
    def recovers(self, term):
        return term.tag in (UNKNOWN, ERROR)


@slip
class unknown_clashes_on_the_right(Sheet):
    def met(self, left, right):
        if left is not right and right.tag in (UNKNOWN, ERROR) and left.tag not in (UNKNOWN, ERROR, INFERENCE):
            return None
        return super().met(left, right)


@slip
class error_clashes(Sheet):
    def met(self, left, right):
        if left is not right and ERROR in (left.tag, right.tag) and INFERENCE not in (left.tag, right.tag):
            return None
        return super().met(left, right)


@slip
class error_bound(Sheet):
    def met(self, left, right):
        if left.tag == INFERENCE and right.tag == ERROR and left.parts[0] not in self.numeric:
            self.bind(left.parts[0], right)
            return ()
        return super().met(left, right)


@slip
class projections_not_bound(Sheet):
    def variable_met(self, variable, term):
        return None if term.tag == PROJECTION and not term.recovery else super().variable_met(variable, term)


@slip
class projections_always_compatible(Sheet):
    def met(self, left, right):
        if left.tag == right.tag == PROJECTION:
            return ()
        return super().met(left, right)


# Which variable, in which order

@slip
class right_variable_bound(Sheet):
    def met(self, left, right):
        if left is not right and left.tag == right.tag == INFERENCE:
            return self.variable_met(right.parts[0], left)
        return super().met(left, right)


@slip
class larger_variable_bound(Sheet):
    def met(self, left, right):
        if left is not right and left.tag == right.tag == INFERENCE and left.parts[0] < right.parts[0]:
            return self.variable_met(right.parts[0], left)
        return super().met(left, right)


@slip
class a_variable_meets_itself(Sheet):
    def met(self, left, right):
        if left is right and left.tag == INFERENCE:
            return None
        return super().met(left, right)


@slip
class parts_met_first_to_last(Sheet):
    def pushed(self, parts):
        return parts[::-1]


@slip
class arguments_pushed_before_members(Sheet):
    def met(self, left, right):
        parts = super().met(left, right)
        if parts and left.tag in NOMINALS:
            members = len(left.below) - left.parts[1]
            parts = parts[members:] + parts[:members]
        return parts


@slip
class incompatible_outranks_cancelled(Sheet):
    def cancelled(self, faults):
        return INCOMPATIBLE if faults else CANCELLED


@slip
class stops_at_the_first_incompatible_part(Sheet):
    def constrain(self, checks, left, right):
        self.clash = False
        return super().constrain(checks, left, right)

    def met(self, left, right):
        parts = None if self.clash else super().met(left, right)
        self.clash = self.clash or parts is None
        return parts


class Rollback(Sheet):
    """Takes bindings and families back after some answers."""

    WHEN = ()

    def constrain(self, checks, left, right):
        before = list(self.bindings), dict(self.numeric), dict(self.ranges), self.revision, self.bound
        answer = super().constrain(checks, left, right)
        if answer in self.WHEN:
            self.bindings, self.numeric, self.ranges, self.revision, self.bound = before
            self.resolved = {}
        return answer


@slip
class incompatible_pair_taken_back(Rollback):
    WHEN = (INCOMPATIBLE,)


@slip
class cancelled_pair_taken_back(Rollback):
    WHEN = (CANCELLED,)


# Shapes

class OtherShape(Sheet):
    """Shapes compared after a change."""

    def changed(self, tag, shape):
        return shape

    def same_shape(self, left, right):
        if left.tag not in ENTERED or right.tag not in ENTERED:
            return False
        first, second = self.changed(left.tag, left.shape()), self.changed(right.tag, right.shape())
        if left.tag in (SET, MAP) and left.tag == right.tag and not self.strict:
            first, second = first[:1] + first[2:], second[:1] + second[2:]
        return first == second and len(left.below) == len(right.below)


@slip
class set_access_counts(Sheet):
    def same_shape(self, left, right):
        return super().same_shape(left, right) and (left.tag != SET or left.parts[0] == right.parts[0])


@slip
class map_access_counts(Sheet):
    def same_shape(self, left, right):
        return super().same_shape(left, right) and (left.tag != MAP or left.parts[0] == right.parts[0])


@slip
class equality_ignores_access(Sheet):
    def met(self, left, right):
        if left is not right and self.bare(left) is self.bare(right):
            return ()
        return super().met(left, right)

    def bare(self, term):
        parts = [self.bare(part) if isinstance(part, Node) else part for part in term.parts]
        if term.tag in (SET, MAP):
            parts[0] = 0
        return self.node(term.tag, *parts)


@slip
class last_access_stays(Sheet):
    def met(self, left, right):
        # A Set that meets one with another access: the variable's end takes the second.
        if left.tag == right.tag == SET and left.parts[0] != right.parts[0]:
            for variable, bound in enumerate(self.bindings):
                if bound is left:
                    self.bindings[variable] = self.node(SET, right.parts[0], left.parts[1])
                    self.resolved = {}
        return super().met(left, right)


@slip
class reference_access_ignored(OtherShape):
    def changed(self, tag, shape):
        return shape[:1] + shape[2:] if tag == REFERENCE else shape


@slip
class range_kind_ignored(OtherShape):
    def changed(self, tag, shape):
        return shape[:1] + shape[2:] if tag == RANGE else shape


@slip
class declaration_ignored(OtherShape):
    def changed(self, tag, shape):
        return shape[:1] + shape[2:] if tag in NOMINALS else shape


@slip
class member_names_ignored(OtherShape):
    def changed(self, tag, shape):
        return shape[:3] + (shape[-1],) if tag in NOMINALS else shape


@slip
class struct_meets_enum(OtherShape):
    def changed(self, tag, shape):
        return (STRUCT,) + shape[1:] if tag == ENUM else shape


@slip
class shorter_tuple_fits(Sheet):
    def same_shape(self, left, right):
        return left.tag == right.tag == TUPLE or super().same_shape(left, right)


@slip
class result_not_met(Sheet):
    def met(self, left, right):
        parts = super().met(left, right)
        return parts[:-1] if parts and left.tag == FUNCTION else parts


@slip
class map_value_not_met(Sheet):
    def met(self, left, right):
        parts = super().met(left, right)
        return parts[:-1] if parts and left.tag == MAP else parts


@slip
class members_not_met(Sheet):
    def met(self, left, right):
        parts = super().met(left, right)
        return parts[len(left.below) - left.parts[1]:] if parts and left.tag in NOMINALS else parts


@slip
class builtins_meet(Sheet):
    def met(self, left, right):
        return () if left.tag == right.tag == BUILTIN else super().met(left, right)


@slip
class hosts_meet(Sheet):
    def met(self, left, right):
        return () if left.tag == right.tag == HOST else super().met(left, right)


# Order 22

class LooselyHere(Sheet):
    """Order 22, loosely where loose(left, right) says so of two resolved terms."""

    def loose(self, left, right):
        return False

    def same_shape(self, left, right):
        before = self.strict
        self.strict = before and not self.loose(left, right)
        same = super().same_shape(left, right)
        self.strict = before
        return same


def loosely(name, rule):
    """A slip of where order 22 looks at access; rule(left, right) says where it does not."""
    SLIPS[name] = type(name, (LooselyHere,), {"loose": lambda self, left, right: rule(left, right)})


loosely("order_22_is_order_4", lambda left, right: True)
loosely("order_22_looks_at_sets_only", lambda left, right: left.tag == MAP)
loosely("order_22_looks_at_maps_only", lambda left, right: left.tag == SET)
loosely("mutable_weakens_in_order_22", lambda left, right: left.tag in (SET, MAP) and left.parts[0] == 1)
loosely("read_only_strengthens_in_order_22", lambda left, right: left.tag in (SET, MAP) and left.parts[0] == 0)
loosely("order_22_looks_at_variable_free_terms_only", lambda left, right: left.variables or right.variables)


@slip
class order_22_looks_at_the_whole_terms_only(Sheet):
    def met(self, left, right):
        parts = super().met(left, right)
        self.strict = False
        return parts


@slip
class order_22_looks_behind_no_variable(Sheet):
    """A Set or Map that a variable stands for meets loosely."""

    def pair_order(self, strict, checks, left, right):
        return super().pair_order(strict and INFERENCE not in (left[0], right[0]), checks, left, right)


@slip
class parts_met_after_a_clash_of_access(Sheet):
    clash = False

    def constrain(self, checks, left, right):
        self.clash = False
        answer = super().constrain(checks, left, right)
        return INCOMPATIBLE if answer == COMPATIBLE and self.clash else answer

    def same_shape(self, left, right):
        if super().same_shape(left, right):
            return True
        before, self.strict = self.strict, False
        same = super().same_shape(left, right)
        self.strict = before
        self.clash = self.clash or same
        return same


@slip
class strictness_remembered(Sheet):
    def constrain_order(self, checks, left, right):
        return self.pair_order(self.strict, checks, left, right)


@slip
class looseness_remembered(Sheet):
    posed = False

    def constrain_order(self, checks, left, right):
        self.posed = True
        return super().constrain_order(checks, left, right)

    def strict_order(self, checks, left, right):
        return self.pair_order(not self.posed, checks, left, right)


@slip
class a_binding_of_order_22_meets_strictly(Sheet):
    """Whichever order it is posed by."""

    def __init__(self):
        super().__init__()
        self.bound_strictly = set()

    def bind(self, variable, term):
        if self.strict and term.tag in (SET, MAP):
            self.bound_strictly.add(term)
        super().bind(variable, term)

    def same_shape(self, left, right):
        before = self.strict
        self.strict = before or not self.bound_strictly.isdisjoint((left, right))
        same = super().same_shape(left, right)
        self.strict = before
        return same


@slip
class equality_ignores_access_in_order_22(equality_ignores_access):
    def met(self, left, right):
        return super().met(left, right) if self.strict else Sheet.met(self, left, right)


@slip
class reference_access_ignored_in_order_22(reference_access_ignored):
    def changed(self, tag, shape):
        return super().changed(tag, shape) if self.strict else shape


@slip
class projections_entered_in_order_22(Sheet):
    def same_shape(self, left, right):
        return left.shape() == right.shape() if self.strict and left.tag == PROJECTION else super().same_shape(left, right)


@slip
class recovery_is_incompatible_in_order_22(recovery_is_incompatible):
    def variable_met(self, variable, term):
        return super().variable_met(variable, term) if self.strict else Sheet.variable_met(self, variable, term)


@slip
class no_families_in_order_22(Sheet):
    def admits(self, variable, term):
        return self.strict and term.tag == BUILTIN or super().admits(variable, term)


@slip
class no_occurs_check_in_order_22(no_occurs_check):
    def variable_met(self, variable, term):
        return super().variable_met(variable, term) if self.strict else Sheet.variable_met(self, variable, term)


@slip
class order_22_never_cancels(Sheet):
    def constrain(self, checks, left, right):
        return super().constrain(1 << 64 if self.strict else checks, left, right)


@slip
class order_22_binds_nothing(Sheet):
    def bind(self, variable, term):
        if not self.strict:
            super().bind(variable, term)

    def never_default_order(self):
        self.strict = False
        return super().never_default_order()

    def numeric_default_order(self):
        self.strict = False
        return super().numeric_default_order()


@slip
class kind_21_is_order_22(Sheet):
    def value(self, order):
        return super().value(b"\x16" + order[1:] if order[:1] == b"\x15" else order)


@slip
class kind_21_is_order_4(Sheet):
    def value(self, order):
        return super().value(b"\x04" + order[1:] if order[:1] == b"\x15" else order)


@slip
class kind_23_is_order_22(Sheet):
    def value(self, order):
        return super().value(b"\x16" + order[1:] if order[:1] == b"\x17" else order)


@slip
class kind_23_is_order_21(Sheet):
    def value(self, order):
        return super().value(b"\x15" + order[1:] if order[:1] == b"\x17" else order)


# Ranges

def held_slip(name, rule):
    """A slip of which types a range admits: rule(how, low, high) has the bounds as integers and says which codes."""
    def held(self, *bounds):
        return frozenset(rule(self, self.value_of(*bounds[:3]), self.value_of(*bounds[3:])))
    SLIPS[name] = type(name, (Sheet,), {"held": held})


def holding(self, *values):
    return {code for code, (least, most) in self.HELD.items() if all(least <= value <= most for value in values)}


held_slip("range_holds_the_low_bound_only", lambda self, low, high: holding(self, low))
held_slip("range_holds_the_high_bound_only", lambda self, low, high: holding(self, high))
held_slip("range_holds_one_of_the_bounds", lambda self, low, high: holding(self, low) | holding(self, high))
held_slip("range_admits_f64", lambda self, low, high: holding(self, low, high) | {F64} if holding(self, low, high) else ())
held_slip("range_admits_f32", lambda self, low, high: holding(self, low, high) | {F32} if holding(self, low, high) else ())
held_slip("range_admits_every_integer", lambda self, low, high: INTEGERS if holding(self, low, high) else ())
held_slip("range_takes_signs_only", lambda self, low, high: (range(4) if low < 0 else range(8)) if holding(self, low, high) else ())
held_slip("range_of_signed_types_only_if_negative", lambda self, low, high: holding(self, low, high) & set(range(4) if low < 0 else range(4, 8)))
held_slip("range_admits_the_smallest_type_only", lambda self, low, high: [code for code in (4, 0, 5, 1, 6, 2, 7, 3) if code in holding(self, low, high)][:1])
for code, (least, most) in reference.HELD.items():
    # One value less and one more at the top and at the bottom. One beyond U64 is no bound.
    constant("range_of_code_%d_ends_early" % code, HELD={**reference.HELD, code: (least, most - 1)})
    constant("range_of_code_%d_begins_late" % code, HELD={**reference.HELD, code: (least + 1, most)})
    constant("range_of_code_%d_begins_early" % code, HELD={**reference.HELD, code: (least - 1, most)})
    if code != 7:
        constant("range_of_code_%d_ends_late" % code, HELD={**reference.HELD, code: (least, most + 1)})
constant("i64_holds_all_64_bits", HELD={**reference.HELD, 3: (-2 ** 63, 2 ** 64 - 1)})
constant("i64_holds_any_minus", HELD={**reference.HELD, 3: (-2 ** 64 + 1, 2 ** 63 - 1)})
constant("u64_ends_as_i64", HELD={**reference.HELD, 7: (0, 2 ** 63 - 1)})
constant("low_half_first", size=lambda self, high, low: low * 4294967296 + high)
constant("bounds_of_32_bits", size=lambda self, high, low: low)
constant("high_half_of_31_bits", size=lambda self, high, low: high * 2147483648 + low)
constant("bounds_without_a_sign", value_of=lambda self, sign, high, low: self.size(high, low))
constant("sign_1_for_plus", value_of=lambda self, sign, high, low: self.size(high, low) * (1 if sign else -1))
constant("sign_of_two_complements", value_of=lambda self, sign, high, low: ~self.size(high, low) if sign else self.size(high, low))


def bounds_slip(name, rule):
    """A slip of refusal 13: rule(how, signs, low, high, types) says whether bounds are refused."""
    def faulty_bounds(self, *bounds):
        low, high = self.value_of(*bounds[:3]), self.value_of(*bounds[3:])
        return rule(self, (bounds[0], bounds[3]), low, high, self.held(*bounds))
    SLIPS[name] = type(name, (Sheet,), {"faulty_bounds": faulty_bounds})


bounds_slip("sign_over_1_is_minus", lambda self, signs, low, high, types: low > high or not types)
bounds_slip("first_sign_over_1_allowed", lambda self, signs, low, high, types: signs[1] > 1 or low > high or not types)
bounds_slip("second_sign_over_1_allowed", lambda self, signs, low, high, types: signs[0] > 1 or low > high or not types)
bounds_slip("sign_of_7_bits", lambda self, signs, low, high, types: any(sign % 128 > 1 for sign in signs) or low > high or not types)
bounds_slip("low_above_high_allowed", lambda self, signs, low, high, types: max(signs) > 1 or not types)
bounds_slip("no_type_allowed", lambda self, signs, low, high, types: max(signs) > 1 or low > high)
bounds_slip("equal_bounds_refused", lambda self, signs, low, high, types: max(signs) > 1 or low >= high or not types)
bounds_slip("low_one_above_high_allowed", lambda self, signs, low, high, types: max(signs) > 1 or low > high + 1 or not types)
bounds_slip("bounds_compared_by_size", lambda self, signs, low, high, types: max(signs) > 1 or abs(low) > abs(high) or not types)
bounds_slip("bounds_of_one_sign_compared_by_size",
            lambda self, signs, low, high, types: max(signs) > 1 or (abs(low) > abs(high) if signs[0] == signs[1] else low > high) or not types)
bounds_slip("high_below_zero_allowed", lambda self, signs, low, high, types: max(signs) > 1 or low > high and high >= 0 or not types)
bounds_slip("only_one_type_refused", lambda self, signs, low, high, types: max(signs) > 1 or low > high or len(types) < 2)


@slip
class minus_zero_refused(Sheet):
    def faulty_bounds(self, *bounds):
        return super().faulty_bounds(*bounds) or bounds[:3] == (1, 0, 0) or bounds[3:] == (1, 0, 0)


@slip
class minus_zero_is_below_zero(Sheet):
    """It is held by signed types alone."""

    def held(self, *bounds):
        minus = bounds[:3] == (1, 0, 0) or bounds[3:] == (1, 0, 0)
        return super().held(*bounds) & (frozenset(range(4)) if minus else INTEGERS)


@slip
class zero_is_above_minus_zero(Sheet):
    def faulty_bounds(self, *bounds):
        return super().faulty_bounds(*bounds) or bounds == (0, 0, 0, 1, 0, 0)


@slip
class bounds_turned_round(Sheet):
    """Low above high is read as high and low."""

    def bounds(self, bounds):
        return bounds[3:] + bounds[:3] if self.value_of(*bounds[:3]) > self.value_of(*bounds[3:]) else bounds

    def held(self, *bounds):
        return super().held(*self.bounds(bounds))

    def faulty_bounds(self, *bounds):
        return super().faulty_bounds(*self.bounds(bounds))


@slip
class sign_over_1_is_2(Sheet):
    class FIELDS(Fields):
        def bound(self, level):
            return [self.listed(2), self.number(), self.number()]


@slip
class sign_over_1_is_3(Sheet):
    class FIELDS(Fields):
        def bound(self, level):
            parts = super().bound(level)
            if parts[0] > 1:
                raise Refused(3)
            return parts


@slip
class sign_is_a_number(Sheet):
    class FIELDS(Fields):
        def bound(self, level):
            return [self.number(), self.number(), self.number()]


@slip
class sign_over_1_refused_at_once(Sheet):
    class FIELDS(Fields):
        def bound(self, level):
            if self.at < len(self.data) and self.data[self.at] > 1:
                raise Refused(13)
            return super().bound(level)


@slip
class refusal_13_before_leftover_bytes(Sheet):
    def solver_value(self, order):
        if order[0] == 21:
            fields = self.FIELDS(order[1:], self.issued())
            self.refuse_bounds(21, fields.row(reference.ORDERS[21][0], 1))
        return super().solver_value(order)


@slip
class refusal_13_after_8(Sheet):
    def refuse_bounds(self, kind, parts):
        if kind == 21 and self.issued() >= self.VARIABLES and self.number_place(parts[0]) not in self.places:
            raise Refused(8)
        super().refuse_bounds(kind, parts)


@slip
class refusal_7_before_13(Sheet):
    """And a range counted as a node."""

    def refuse_bounds(self, kind, parts):
        if kind == 21 and self.kept >= self.NODES:
            raise Refused(7)
        super().refuse_bounds(kind, parts)


@slip
class refused_range_issues_its_variable(Sheet):
    def refuse_bounds(self, kind, parts):
        if kind == 21:
            self.placed(self.number_place(parts[0]))
        super().refuse_bounds(kind, parts)


@slip
class refused_range_is_requested(Sheet):
    """A plain request, where the place is there."""

    def refuse_bounds(self, kind, parts):
        place = kind == 21 and self.number_place(parts[0])
        if place in self.places:
            self.request(self.places[place], parts[1])
        super().refuse_bounds(kind, parts)


@slip
class no_refusal_13_for_an_issued_place(Sheet):
    def refuse_bounds(self, kind, parts):
        if kind != 21 or self.number_place(parts[0]) not in self.places:
            super().refuse_bounds(kind, parts)

    def request_range(self, variable, fallback, types):
        if types:
            super().request_range(variable, fallback, types)


@slip
class refusal_13_is_2(Sheet):
    def refuse_bounds(self, kind, parts):
        if kind == 21 and self.faulty_bounds(*parts[2:]):
            raise Refused(2)


@slip
class fallback_must_be_admitted(Sheet):
    def refuse_bounds(self, kind, parts):
        super().refuse_bounds(kind, parts)
        if kind == 21 and parts[1] not in self.held(*parts[2:]):
            raise Refused(13)


@slip
class range_at_slot_0(Sheet):
    def range_order(self, site, fallback, *bounds):
        self.number_place = lambda site: self.expression_place(site, 0)
        try:
            return super().range_order(site, fallback, *bounds)
        finally:
            del self.number_place


@slip
class range_order_answers_the_variable(Sheet):
    def range_order(self, site, fallback, *bounds):
        super().range_order(site, fallback, *bounds)
        return self.inference(self.places[self.number_place(site)])


@slip
class order_21_is_order_1(Sheet):
    def request_range(self, variable, fallback, types):
        self.request(variable, fallback)


@slip
class range_of_a_float_fallback_is_plain(Sheet):
    def request_range(self, variable, fallback, types):
        if fallback == F64:
            self.request(variable, fallback)
        else:
            super().request_range(variable, fallback, types)


@slip
class range_holds_its_fallback(Sheet):
    """The fallback's family is joined with the range, where they have a type in common."""

    def request_range(self, variable, fallback, types):
        super().request_range(variable, fallback, frozenset((fallback,)) if fallback in types else types)


@slip
class order_1_after_21_keeps_the_range(Sheet):
    def request(self, variable, fallback):
        self.numeric[variable] = fallback


@slip
class order_21_after_1_stays_plain(Sheet):
    def request_range(self, variable, fallback, types):
        if variable in self.numeric and variable not in self.ranges:
            self.request(variable, fallback)
        else:
            super().request_range(variable, fallback, types)


@slip
class first_range_stays(Sheet):
    def request_range(self, variable, fallback, types):
        super().request_range(variable, fallback, self.ranges.get(variable, types))


@slip
class first_range_and_fallback_stay(Sheet):
    def request_range(self, variable, fallback, types):
        if variable not in self.ranges:
            super().request_range(variable, fallback, types)


@slip
class repeated_ranges_narrow(Sheet):
    def request_range(self, variable, fallback, types):
        super().request_range(variable, fallback, self.ranges.get(variable, types) & types or types)


@slip
class a_range_reaches_the_end_of_the_chain(Sheet):
    """A request for a bound variable is one for its end."""

    def request_range(self, variable, fallback, types):
        super().request_range(variable, fallback, types)
        end = self.free_end(variable)
        if end is not None:
            super().request_range(end, fallback, types)


@slip
class a_plain_request_reaches_the_end_of_the_chain(Sheet):
    """Where the end has a range, it is plain again."""

    def request(self, variable, fallback):
        super().request(variable, fallback)
        end = self.free_end(variable)
        if end is not None and end in self.ranges:
            super().request(end, fallback)


@slip
class request_of_a_bound_one_joins_its_end(Sheet):
    """The end is narrowed by what is requested, where something is left."""

    def request_range(self, variable, fallback, types):
        super().request_range(variable, fallback, types)
        end = self.free_end(variable)
        if end is not None and end in self.numeric and self.types(end) & types:
            self.ranges[end] = frozenset(self.types(end) & types)


@slip
class deferred_ranges_take_their_default(Sheet):
    """Order 7 takes an admitted type in place of Never."""

    def never_default_order(self):
        before = self.revision
        for variable in self.deferred_in_turn():
            end = self.free_end(variable)
            if end is not None:
                self.bind(end, self.builtin(self.taken(end, self.numeric[end], end) if end in self.ranges else NEVER))
        return bytes([self.revision != before])


@slip
class bound_variables_get_no_range(Sheet):
    def request_range(self, variable, fallback, types):
        if self.is_bound(variable):
            self.request(variable, fallback)
        else:
            super().request_range(variable, fallback, types)


constant("range_forgotten_at_a_join", join_ranges=lambda self, variable, other: self.ranges.pop(other, None) and None)
constant("range_of_the_free_one_stays", join_ranges=lambda self, variable, other: None)


@slip
class range_of_the_bound_one_is_copied(Sheet):
    """As the fallback is."""

    def join_ranges(self, variable, other):
        if variable in self.ranges:
            self.ranges[other] = self.ranges[variable]
        else:
            self.ranges.pop(other, None)


@slip
class join_with_a_plain_one_is_plain(Sheet):
    def join_ranges(self, variable, other):
        if other not in self.numeric or variable in self.ranges and other in self.ranges:
            super().join_ranges(variable, other)
        else:
            self.ranges.pop(other, None)


@slip
class join_with_a_free_one_is_plain(Sheet):
    def join_ranges(self, variable, other):
        if other in self.numeric:
            super().join_ranges(variable, other)


@slip
class join_leaves_what_one_admits(Sheet):
    def join_ranges(self, variable, other):
        if other in self.numeric and (variable in self.ranges or other in self.ranges):
            self.ranges[other] = self.types(variable) | self.types(other)
        else:
            super().join_ranges(variable, other)


@slip
class join_narrows_both(Sheet):
    """Also the request of the variable that is bound: its own default looks there first."""

    def join_ranges(self, variable, other):
        super().join_ranges(variable, other)
        if other in self.ranges:
            self.ranges[variable] = self.ranges[other]

    def admitted(self, variable, end):
        return self.types(variable)


@slip
class empty_joins_allowed(Sheet):
    """Of two ranges; a range and a float are incompatible."""

    def admits(self, variable, term):
        if term.tag == INFERENCE and variable in self.ranges and term.parts[0] in self.ranges:
            return True
        return super().admits(variable, term)


@slip
class ranges_must_be_equal_to_join(Sheet):
    def admits(self, variable, term):
        if term.tag == INFERENCE and term.parts[0] in self.numeric:
            return self.types(variable) == self.types(term.parts[0])
        return super().admits(variable, term)


@slip
class ranges_join_inwards_only(Sheet):
    """A variable is bound to one that admits no more than it does."""

    def admits(self, variable, term):
        if term.tag == INFERENCE and variable in self.ranges and term.parts[0] in self.ranges:
            return self.types(variable) >= self.types(term.parts[0])
        return super().admits(variable, term)


@slip
class range_joins_a_float(Sheet):
    def admits(self, variable, term):
        if term.tag == INFERENCE and (variable in self.ranges) != (term.parts[0] in self.ranges):
            return True
        return super().admits(variable, term)


@slip
class default_by_its_own_request_alone(Sheet):
    def taken(self, variable, fallback, end):
        return super().taken(variable, fallback, variable)


@slip
class default_by_the_end_request_alone(Sheet):
    """What is admitted and whether a range took part."""

    def taken(self, variable, fallback, end):
        return super().taken(end, fallback, end) if end in self.numeric else fallback


@slip
class default_by_the_fallback_of_the_end(Sheet):
    def taken(self, variable, fallback, end):
        return super().taken(variable, self.numeric.get(end, fallback), end)


@slip
class default_by_what_both_requests_admit(Sheet):
    def admitted(self, variable, end):
        return self.types(variable) & super().admitted(variable, end)


@slip
class default_keeps_its_fallback(Sheet):
    def taken(self, variable, fallback, end):
        return fallback


@slip
class default_never_takes_its_fallback(Sheet):
    """Of a range."""

    def taken(self, variable, fallback, end):
        return super().taken(variable, None, end) if variable in self.ranges and self.admitted(variable, end) & INTEGERS else super().taken(variable, fallback, end)


@slip
class plain_defaults_look_at_what_is_admitted(Sheet):
    """A plain fallback such as Never or F32 goes over to I32."""

    def taken(self, variable, fallback, end):
        admitted = self.admitted(variable, end)
        return next((code for code in (fallback,) + self.PREFERENCE if code in admitted), fallback)


@slip
class default_where_nothing_is_admitted_is_i32(Sheet):
    def taken(self, variable, fallback, end):
        code = super().taken(variable, fallback, end)
        ranged = variable in self.ranges or end in self.ranges
        return 2 if ranged and code not in self.admitted(variable, end) else code


@slip
class default_where_nothing_is_admitted_is_none(Sheet):
    """The end stays free."""

    def free_end(self, variable):
        end = super().free_end(variable)
        if end is not None and variable in self.ranges and not self.admitted(variable, end) & INTEGERS:
            return None
        return end


for name, order in (("i64_before_i32", (3, 2, 6, 7, 0, 4, 1, 5)), ("u32_before_i64", (2, 6, 3, 7, 0, 4, 1, 5)), ("u64_before_i64", (2, 7, 3, 6, 0, 4, 1, 5)),
                    ("small_types_first", (0, 4, 1, 5, 2, 6, 3, 7)), ("i8_before_i32", (0, 2, 3, 6, 7, 4, 1, 5)), ("i16_before_i32", (1, 2, 3, 6, 7, 0, 4, 5)),
                    ("u8_before_i32", (4, 2, 3, 6, 7, 0, 1, 5)), ("u16_before_i32", (5, 2, 3, 6, 7, 0, 4, 1)), ("by_code", tuple(range(8)))):
    constant("default_" + name, PREFERENCE=order)
constant("default_without_u64", PREFERENCE=(2, 3, 6))
constant("default_i32_only", PREFERENCE=(2,))


@slip
class never_default_passes_over_ranges(Sheet):
    def deferred_in_turn(self):
        return [variable for variable in sorted(self.diverging) if self.free_end(variable) not in self.ranges]


@slip
class ranges_not_held_to_in_order_22(Sheet):
    def types(self, variable):
        return INTEGERS if self.strict and variable in self.ranges else super().types(variable)

    def numeric_default_order(self):
        self.strict = False
        return super().numeric_default_order()


# Families

constant("family_lost_in_a_join", join=lambda self, variable, other: None)
constant("join_keeps_the_right_fallback", join=lambda self, variable, other: self.numeric.setdefault(other, self.numeric[variable]))
constant("families_join_freely", admits=lambda self, variable, term: term.tag == INFERENCE or Sheet.admits(self, variable, term))
constant("number_joins_only_numbers", admits=lambda self, variable, term: Sheet.admits(self, variable, term)
         and (term.tag != INFERENCE or term.parts[0] in self.numeric))
constant("f32_is_floating", family=lambda self, fallback: FLOATS if fallback in (F32, F64) else INTEGERS)
constant("only_f64_for_floats", family=lambda self, fallback: frozenset((F64,)) if fallback == F64 else INTEGERS)
constant("integers_with_f32", family=lambda self, fallback: FLOATS if fallback == F64 else INTEGERS | {F32})
constant("integers_without_u64", family=lambda self, fallback: FLOATS if fallback == F64 else INTEGERS - {7})
constant("signed_integers_only", family=lambda self, fallback: FLOATS if fallback == F64 else frozenset(range(4)))
constant("family_is_the_fallback", family=lambda self, fallback: frozenset((fallback,)))
constant("number_takes_never", admits=lambda self, variable, term: term.tag == BUILTIN and term.parts[0] == NEVER
         or Sheet.admits(self, variable, term))


@slip
class family_of_the_left_only(Sheet):
    def met(self, left, right):
        # A number variable on the right binds to anything.
        if left.tag != INFERENCE and right.tag == INFERENCE and left.tag not in (UNKNOWN, ERROR):
            variable = right.parts[0]
            if not self.recovers(left) and not self.occurs(variable, left):
                self.bind(variable, left)
                return ()
        return super().met(left, right)


# Places and requests

constant("number_places_apart", number_place=lambda self, site: ("number", site))
constant("number_place_in_slot_0", number_place=lambda self, site: ("expression", site, 0))
constant("holes_share_sites", hole_place=lambda self, site: ("expression", site, 0))
constant("slots_ignored", expression_place=lambda self, site, slot: ("expression", site, 0))
constant("first_request_stays", request=lambda self, variable, fallback: self.numeric.setdefault(variable, fallback))


@slip
class request_of_a_bound_variable_ignored(Sheet):
    def request(self, variable, fallback):
        if not self.is_bound(variable):
            super().request(variable, fallback)


@slip
class request_at_the_end_of_the_chain(Sheet):
    def request(self, variable, fallback):
        end = self.free_end(variable)
        super().request(variable if end is None else end, fallback)


@slip
class number_order_answers_the_variable(Sheet):
    def number_order(self, site, fallback):
        super().number_order(site, fallback)
        return self.inference(self.placed(self.number_place(site)))


@slip
class hole_order_answers_the_variable(Sheet):
    def hole_order(self, site):
        return self.inference(self.placed(self.hole_place(site)))


@slip
class variable_order_answers_the_end(Sheet):
    def variable_order(self, site, slot):
        return self.resolve(super().variable_order(site, slot))


@slip
class variables_from_1(Sheet):
    def variable_order(self, site, slot):
        return self.inference(super().variable_order(site, slot).parts[0] + 1)


# Resolving

@slip
class resolves_one_step(Sheet):
    def resolve_order(self, term):
        return self.once(self.shared(term))

    def once(self, term):
        if term.tag == INFERENCE:
            return self.bindings[term.parts[0]] or term
        return self.node(term.tag, *(self.once(part) if isinstance(part, Node) else part for part in term.parts))


@slip
class resolve_enters_no_projection(Sheet):
    def resolve_order(self, term):
        return self.outside(self.shared(term))

    def outside(self, term):
        if term.tag == PROJECTION:
            return term
        if term.tag == INFERENCE:
            bound = self.bindings[term.parts[0]]
            return term if bound is None else self.outside(bound)
        return self.node(term.tag, *(self.outside(part) if isinstance(part, Node) else part for part in term.parts))


@slip
class resolve_gives_unknown_for_free_variables(Sheet):
    def resolve_order(self, term):
        found = super().resolve_order(term)
        return self.node(UNKNOWN) if found.tag == INFERENCE else found


# Defaults and deferrals

constant("numeric_defaults_by_falling_id", defaults_in_turn=lambda self: sorted(self.numeric.items(), reverse=True))


@slip
class default_by_the_end(Sheet):
    def defaults_in_turn(self):
        for variable in sorted(self.numeric):
            end = self.free_end(variable)
            if end is not None:
                yield variable, self.numeric.get(end, self.numeric[variable])


@slip
class defaults_for_free_requests_only(Sheet):
    def defaults_in_turn(self):
        return [entry for entry in sorted(self.numeric.items()) if not self.is_bound(entry[0])]


@slip
class default_i32_or_f64(Sheet):
    def defaults_in_turn(self):
        return [(variable, F64 if fallback == F64 else 2) for variable, fallback in sorted(self.numeric.items())]


@slip
class numeric_default_says_whether_requested(Sheet):
    def numeric_default_order(self):
        super().numeric_default_order()
        return bytes([bool(self.numeric)])


@slip
class never_default_says_whether_deferred(Sheet):
    def never_default_order(self):
        super().never_default_order()
        return bytes([bool(self.diverging)])


@slip
class never_defaults_spare_numbers(Sheet):
    def deferred_in_turn(self):
        return [variable for variable in sorted(self.diverging) if self.free_end(variable) not in self.numeric]


@slip
class every_free_variable_is_never(Sheet):
    def deferred_in_turn(self):
        return range(self.issued())


@slip
class deferral_forgotten_once_bound(Sheet):
    def deferred_in_turn(self):
        return [variable for variable in sorted(self.diverging) if not self.is_bound(variable)]


@slip
class deferral_of_every_variable_inside(Sheet):
    def defer_order(self, term):
        end = self.resolve(self.shared(term))
        for variable in range(self.issued()):
            if end.variables >> variable & 1:
                self.defer(variable)
        return b""


@slip
class deferral_is_an_equality(Sheet):
    def defer(self, variable):
        self.bind(variable, self.builtin(NEVER))


@slip
class deferral_not_resolved(Sheet):
    def defer_order(self, term):
        if term[0] == INFERENCE and not self.is_bound(term[1][0]):
            self.defer(term[1][0])
        return b""


# Refusals and limits

constant("nodes_2047", NODES=2047)
constant("nodes_2049", NODES=2049)
constant("variables_511", VARIABLES=511)
constant("variables_513", VARIABLES=513)
constant("levels_199", FIELDS=type("levels_199", (Fields,), {"LEVELS": 199}))
constant("levels_201", FIELDS=type("levels_201", (Fields,), {"LEVELS": 201}))
constant("kind_20_unlisted", KINDS=tuple(range(20)) + (21, 22))
constant("kind_21_unlisted", KINDS=tuple(range(21)) + (22,))
constant("kind_22_unlisted", KINDS=tuple(range(22)))


def keeping(name, rule):
    """A slip of what a pair keeps; rule(verdict, bound) says whether it keeps its nodes."""
    def keep(self, kind, nodes, value, bound):
        if kind in PAIRS and rule(value[0], bound):
            self.kept += nodes
    constant(name, keep=keep)


keeping("pairs_keep_no_nodes", lambda verdict, bound: False)
keeping("pairs_keep_in_any_case", lambda verdict, bound: True)
keeping("pairs_keep_where_they_bind_nothing", lambda verdict, bound: not bound)
keeping("pairs_keep_where_compatible", lambda verdict, bound: verdict == COMPATIBLE)
keeping("compatible_pairs_keep_no_nodes", lambda verdict, bound: bound and verdict != COMPATIBLE)
keeping("incompatible_pairs_keep_no_nodes", lambda verdict, bound: bound and verdict != INCOMPATIBLE)
keeping("cancelled_pairs_keep_no_nodes", lambda verdict, bound: bound and verdict != CANCELLED)
keeping("compatible_pairs_keep_in_any_case", lambda verdict, bound: bound or verdict == COMPATIBLE)
keeping("incompatible_pairs_keep_in_any_case", lambda verdict, bound: bound or verdict == INCOMPATIBLE)
keeping("cancelled_pairs_keep_in_any_case", lambda verdict, bound: bound or verdict == CANCELLED)
constant("order_5_keeps_nodes", keep=lambda self, kind, nodes, value, bound: Sheet.keep(self, 4, nodes, value, bound or kind == 5))
constant("order_3_keeps_nodes", keep=lambda self, kind, nodes, value, bound: Sheet.keep(self, 4, nodes, value, bound or kind == 3))
constant("order_22_keeps_in_any_case", keep=lambda self, kind, nodes, value, bound: Sheet.keep(self, kind, nodes, value, bound or kind == 22))
constant("order_22_keeps_no_nodes", keep=lambda self, kind, nodes, value, bound: Sheet.keep(self, kind, nodes, value, bound and kind != 22))
constant("kept_nodes_not_counted_in_orders_9_to_20", plain_value=lambda self, order: self.PLAIN(order).order())


@slip
class a_pair_that_binds_nothing_gives_back_all(Sheet):
    def keep(self, kind, nodes, value, bound):
        super().keep(kind, nodes, value, bound)
        if kind in PAIRS and not bound:
            self.kept = 0


@slip
class a_pair_keeps_a_node_for_each_binding(Sheet):
    def pair_order(self, strict, checks, left, right):
        before = self.revision
        answer = super().pair_order(strict, checks, left, right)
        self.kept += self.revision - before
        return answer

    def keep(self, kind, nodes, value, bound):
        pass


@slip
class a_pair_keeps_only_what_it_bound(Sheet):
    """The nodes of the terms that became bindings, and not those beside them."""

    def pair_order(self, strict, checks, left, right):
        before = self.bindings[:]
        answer = super().pair_order(strict, checks, left, right)
        self.kept += sum(self.count(term) for old, term in zip(before, self.bindings) if old is not term)
        return answer

    def count(self, term):
        return 1 + sum(map(self.count, term.below))

    def keep(self, kind, nodes, value, bound):
        pass


@slip
class a_pair_posed_again_keeps_no_nodes(Sheet):
    """Whether or not it binds then."""

    def solver_value(self, order):
        posed = self.__dict__.setdefault("posed", set())
        kept = self.kept
        value = super().solver_value(order)
        if order in posed:
            self.kept = kept
        posed.add(order)
        return value


class SevenLater(Sheet):
    """Tests 7 after a pair was met; where refused(bound) says so it is refused."""

    def refused(self, bound):
        return True

    def pair_order(self, strict, checks, left, right):
        before = self.bindings[:], dict(self.numeric), self.revision, self.bound, dict(self.ranges)
        answer = super().pair_order(strict, checks, left, right)
        if self.kept + self.posed > 2048 and self.refused(self.revision != before[2]):
            self.taken_back(before)
            raise Refused(7)
        return answer

    def taken_back(self, before):
        self.bindings, self.numeric, self.revision, self.bound, self.ranges = before
        self.resolved = {}

    def solver_value(self, order):
        if order[0] not in PAIRS:
            return super().solver_value(order)
        names, _ = reference.ORDERS[order[0]]
        fields = self.FIELDS(order[1:], self.issued())
        fields.row(names, 1)
        fields.used_up()
        self.posed, self.NODES = fields.nodes_read, 1 << 32
        try:
            return super().solver_value(order)
        finally:
            del self.NODES


@slip
class refused_pair_binds(SevenLater):
    def taken_back(self, before):
        pass


@slip
class pairs_that_bind_nothing_not_refused(SevenLater):
    def refused(self, bound):
        return bound


@slip
class pairs_that_bind_not_refused(SevenLater):
    def refused(self, bound):
        return not bound


@slip
class order_22_not_refused_7(Sheet):
    def solver_value(self, order):
        if order[0] != 22:
            return super().solver_value(order)
        self.NODES = 1 << 32
        try:
            return super().solver_value(order)
        finally:
            del self.NODES


@slip
class refused_pairs_keep_nodes(Sheet):
    def solver_value(self, order):
        try:
            return super().solver_value(order)
        except Refused:
            if order[0] in PAIRS:
                self.kept += 2
            raise


@slip
class defaults_keep_nodes(Sheet):
    def numeric_default_order(self):
        before = self.revision
        answer = super().numeric_default_order()
        self.kept += self.revision - before
        return answer


@slip
class repeated_place_refused_at_512(Sheet):
    def placed(self, place):
        if self.issued() >= self.VARIABLES:
            raise Refused(8)
        return super().placed(place)


@slip
class holes_not_counted_as_variables(Sheet):
    def placed(self, place):
        if place[0] == "hole" and place not in self.places and self.issued() >= self.VARIABLES:
            return 0
        return super().placed(place)


@slip
class refusal_6_after_reading(Sheet):
    class FIELDS(Fields):
        unissued = False

        def inference_id(self, level):
            value = self.number()
            self.unissued |= value >= self.issued
            return [value]

        def used_up(self):
            super().used_up()
            if self.unissued:
                raise Refused(6)


@slip
class refusal_6_in_orders_9_to_20(Sheet):
    def plain_value(self, order):
        session = self

        class Strict(Orders):
            def inference_id(self, level):
                value = self.number()
                if value >= session.issued():
                    raise Refused(6)
                return [value]
        how = Strict(order)
        how.NODES = self.NODES - self.kept
        return how.order()


@slip
class refusal_7_before_leftover_bytes(Sheet):
    def solver_value(self, order):
        names, _ = reference.ORDERS[order[0]]
        fields = self.FIELDS(order[1:], self.issued())
        fields.row(names, 1)
        if self.kept + fields.nodes_read > self.NODES:
            raise Refused(7)
        return super().solver_value(order)


@slip
class refusal_7_at_the_node(Sheet):
    def solver_value(self, order):
        session = self

        class Bounded(Fields):
            def term(self, level):
                if session.kept + self.nodes_read >= session.NODES:
                    raise Refused(7)
                return super().term(level)
        self.FIELDS = Bounded
        return super().solver_value(order)


@slip
class leftover_bytes_allowed(Sheet):
    class FIELDS(Fields):
        def used_up(self):
            pass


@slip
class members_may_repeat(Sheet):
    class FIELDS(Fields):
        def members(self, level):
            try:
                return super().members(level)
            except Refused as refusal:
                raise Refused(2) if refusal.args == (5,) else refusal


@slip
class fallback_must_be_a_number_type(Sheet):
    def number_order(self, site, fallback):
        if fallback > F64:
            raise Refused(2)
        return super().number_order(site, fallback)


# The run

@slip
class refused_orders_have_no_answer(Sheet):
    def step(self, order, room):
        answer = super().step(order, room)
        return b"" if answer is not None and answer[:1] == b"\x01" and len(answer) == 2 and answer[1] else answer


@slip
class empty_orders_passed_over(Sheet):
    def step(self, order, room):
        return super().step(order, room) if order else b""


class OtherRun(Sheet):
    """The run, with places to change."""

    def length(self, lengths):
        return lengths.number()

    def beyond(self, length, left):
        return length > left

    def full(self, lengths):
        """Whether the run goes on after an answer that does not fit."""
        return False

    def end(self, reason, orders, out, room):
        return Run(reason, orders, bytes(out))

    def run(self, sheet, room, words=None):
        lengths, out, orders = Reader(sheet), bytearray(), 0
        while lengths.at < len(sheet):
            try:
                length = self.length(lengths)
            except Refused:
                return self.end(10, orders, out, room)
            if self.beyond(length, len(sheet) - lengths.at):
                return self.end(10, orders, out, room)
            order = sheet[lengths.at:lengths.at + length]
            lengths.at += length
            answer = self.step(order, room - len(out))
            if answer is None:
                if self.full(lengths):
                    continue
                return self.end(11, orders, out, room)
            out += answer
            orders += 1
        return self.end(0, orders, out, room)


@slip
class goes_on_after_a_full_output(OtherRun):
    def full(self, lengths):
        return True


@slip
class last_order_may_be_short(OtherRun):
    def beyond(self, length, left):
        return False


@slip
class full_output_before_a_faulty_length(OtherRun):
    def end(self, reason, orders, out, room):
        return super().end(11 if reason == 10 and len(out) == room else reason, orders, out, room)


@slip
class full_output_before_a_used_up_sheet(OtherRun):
    def end(self, reason, orders, out, room):
        return super().end(11 if reason == 0 and len(out) == room else reason, orders, out, room)


@slip
class faulty_length_ends_well(OtherRun):
    def end(self, reason, orders, out, room):
        return super().end(0 if reason == 10 else reason, orders, out, room)


@slip
class longer_lengths_taken(OtherRun):
    def length(self, lengths):
        at = lengths.at
        try:
            return lengths.number()
        except Refused:
            if lengths.data[at:at + 2] == b"\x80\x00":
                lengths.at = at + 2
                return 0
            raise


@slip
class a_session_for_every_order(Sheet):
    def step(self, order, room):
        Sheet.__init__(self)
        return super().step(order, room)


@slip
class orders_9_to_20_change_the_session(Sheet):
    def plain_value(self, order):
        value = super().plain_value(order)
        self.kept += 1
        return value


@slip
class the_order_that_does_not_fit_counts(OtherRun):
    def end(self, reason, orders, out, room):
        return super().end(reason, orders + (reason == 11), out, room)


# Bases of slips, without a fault of their own: nothing may tell them from Sheet.
PLAIN = (Rollback, OtherShape, LooselyHere, SevenLater, OtherRun)


if __name__ == "__main__":
    import sheet_compare
    sys.argv[1:1] = ["--slip", "all"]
    sys.exit(sheet_compare.main())
