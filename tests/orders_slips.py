"""Orders carried out with one deliberate fault each; SLIPS gives them by name. slips.py says what for."""

from orders_reference import (
    ERROR, GENERIC, NOMINALS, OPEN, ORDERS, PROJECTION, RECOVERY, SELF_TYPE, SET, MAP, REFERENCE, RANGE, STRUCT, THE_ERROR,
    THE_UNKNOWN, TRAIT, TUPLE, FUNCTION, UNKNOWN, INFERENCE, BUILTIN, WEAK, Orders, children, collection_access, member_names,
    member_of, nominal_children, with_children)
from slips import Registry
from terms_reference import NOMINAL, Refused

SLIPS = Registry(Orders)
slip, constant = SLIPS.slip, SLIPS.constant
# These show only in whole inputs, not in single orders.
RUN_SLIPS = ("input_unbounded", "input_32767", "output_unbounded", "output_32767")


# Limits and tables

constant("levels_201", LEVELS=201)
constant("levels_199", LEVELS=199)
constant("nodes_2049", NODES=2049)
constant("nodes_2047", NODES=2047)
constant("nodes_of_no_limit", NODES=1 << 30)
constant("depth_63", DEPTH=63)
constant("depth_65", DEPTH=65)
constant("visits_8191", VISITS=8191)
constant("visits_8193", VISITS=8193)
constant("children_8191", CHILDREN=8191)
constant("children_8193", CHILDREN=8193)
constant("kind_20_unlisted", ORDERS={kind: row for kind, row in ORDERS.items() if kind != 20})
constant("kind_23_listed", ORDERS={**ORDERS, 23: ORDERS[9]})
constant("instantiate_term_first", ORDERS={**ORDERS, 12: (("one_term", "substitution"), "term_then_substitution", "term")},
         term_then_substitution=lambda self, term, substitution: self.instantiated(substitution, term))
constant("context_parameters_first",
         ORDERS={**ORDERS, 13: (("parameters", "substitution", "one_term"), "parameters_then_substitution", "term")},
         parameters_then_substitution=lambda self, parameters, substitution, term:
         self.argument_context(substitution, parameters, term))
constant("with_self_term_before_replacement",
         ORDERS={**ORDERS, 14: (("one_number", "one_term", "one_term"), "swapped_with_self", "term")},
         swapped_with_self=lambda self, owner, term, new: self.with_self(owner, new, term))
constant("satisfies_receiver_first", ORDERS={**ORDERS, 17: (("one_term", "nominal", "nominal"), "receiver_first", "truths")},
         receiver_first=lambda self, receiver, nominal, required: self.both_satisfied(nominal, required, receiver))
constant("family_substitution_before_value",
         ORDERS={**ORDERS, 18: (("parameters", "substitution", "one_term", "terms"), "substitution_first", "maybe_term")},
         substitution_first=lambda self, parameters, substitution, value, arguments:
         self.family_applied(parameters, value, substitution, arguments))
constant("family_without_its_byte", ORDERS={**ORDERS, 18: ORDERS[18][:2] + ("bare_maybe",)},
         value_bytes=lambda self, form, value: b"\x00" if form == "bare_maybe" and value is None
         else Orders.value_bytes(self, "term" if form == "bare_maybe" else form, value))
constant("rules_after_the_term", ORDERS={**ORDERS, 20: (("one_term", "rules"), "term_then_rules", "term")},
         term_then_rules=lambda self, term, rules: self.normalised(rules, term))
constant("input_unbounded", INPUT=1 << 30)
constant("input_32767", INPUT=32767)
constant("output_unbounded", OUTPUT=1 << 30)
constant("output_32767", OUTPUT=32767)


# Reading

@slip
class leftover_bytes_allowed(Orders):
    def used_up(self):
        pass


@slip
class nodes_refused_before_leftover_bytes(Orders):
    def used_up(self):
        if self.nodes_read > self.NODES:
            raise Refused(7)
        super().used_up()


@slip
class nodes_refused_while_reading(Orders):
    def term(self, level):
        term = super().term(level)
        if self.nodes_read > self.NODES:
            raise Refused(7)
        return term


@slip
class a_bare_nominal_is_a_node(Orders):
    def nominal(self, level):
        if level == 1:
            self.nodes_read += 1
        return super().nominal(level)


@slip
class a_rule_is_no_node(Orders):
    def rules(self, level):
        before = self.nodes_read
        found = super().rules(level)
        self.nodes_read = before
        return found


@slip
class a_bare_nominal_starts_at_level_2(Orders):
    def nominal(self, level):
        return [tuple(self.row(NOMINAL, 2 if level == 1 else level))]


@slip
class an_inference_id_must_be_issued(Orders):
    def inference_id(self, level):
        value = self.number()
        if value >= 512:
            raise Refused(6)
        return [value]


@slip
class the_first_entry_counts(Orders):
    def substitution(self, level):
        rows = self.rows(("one_number", "one_number", "one_term"), level)
        receivers = dict(self.rows(("one_number", "one_term"), level))
        return [({(owner, position): term for owner, position, term in reversed(rows)}, receivers)]


@slip
class the_first_receiver_counts(Orders):
    def substitution(self, level):
        parameters = {(owner, position): term
                      for owner, position, term in self.rows(("one_number", "one_number", "one_term"), level)}
        return [(parameters, dict(reversed(self.rows(("one_number", "one_term"), level))))]


@slip
class entries_found_by_position_only(Orders):
    def instantiated(self, substitution, term):
        by_position = {position: value for (_, position), value in substitution[0].items()}
        return self.substituted(term, lambda part: by_position.get(part[2]) if part[0] == GENERIC
                                else substitution[1].get(part[1]) if part[0] == SELF_TYPE else None)


@slip
class entries_found_by_owner_only(Orders):
    def instantiated(self, substitution, term):
        by_owner = {owner: value for (owner, _), value in substitution[0].items()}
        return self.substituted(term, lambda part: by_owner.get(part[1]) if part[0] == GENERIC
                                else substitution[1].get(part[1]) if part[0] == SELF_TYPE else None)


# Orders 9 and 10

@slip
class access_does_not_conflict(Orders):
    def accesses_conflict(self, left, right):
        return False


@slip
class reference_access_does_not_conflict(Orders):
    def conflicts(self, left, right):
        if left[0] == right[0] == REFERENCE:
            return super().conflicts(left[2], right[2])
        return super().conflicts(left, right)


@slip
class range_kind_does_not_conflict(Orders):
    def conflicts(self, left, right):
        if left[0] == right[0] == RANGE:
            return super().conflicts(left[2], right[2])
        return super().conflicts(left, right)


@slip
class error_conflicts(Orders):
    def conflicts(self, left, right):
        if ERROR in (left[0], right[0]):
            return left != right
        return super().conflicts(left, right)


@slip
class inference_conflicts(Orders):
    def conflicts(self, left, right):
        if left[0] == right[0] == INFERENCE:
            return left != right
        return super().conflicts(left, right)


@slip
class lengths_do_not_conflict(Orders):
    def conflicts(self, left, right):
        if left[0] == right[0] == TUPLE:
            return self.any_conflicts(left[1], right[1])
        return super().conflicts(left, right)


@slip
class parameter_counts_do_not_conflict(Orders):
    def conflicts(self, left, right):
        if left[0] == right[0] == FUNCTION:
            return self.any_conflicts(left[1] + left[2:], right[1] + right[2:]) and len(left[1]) == len(right[1])
        return super().conflicts(left, right)


@slip
class conflicts_enter_projections(Orders):
    def others_conflict(self, left, right):
        if left[0] == PROJECTION:
            return (left[3] != right[3] or len(left[4]) != len(right[4]) or self.conflicts(left[1], right[1])
                    or self.nominals_conflict(left[2], right[2]) or self.any_conflicts(left[4], right[4]))
        return left != right


@slip
class members_do_not_conflict(Orders):
    def nominals_conflict(self, left, right):
        return left[0] != right[0] or len(left[1]) != len(right[1]) or self.any_conflicts(left[1], right[1])


@slip
class member_names_do_not_conflict(Orders):
    def nominals_conflict(self, left, right):
        return (left[0] != right[0] or len(left[1]) != len(right[1]) or len(left[2]) != len(right[2])
                or self.any_conflicts(nominal_children(left), nominal_children(right)))


@slip
class member_counts_do_not_conflict(Orders):
    def nominals_conflict(self, left, right):
        shared = min(len(left[2]), len(right[2]))
        return super().nominals_conflict((left[0], left[1], left[2][:shared]), (right[0], right[1], right[2][:shared]))


@slip
class struct_and_enum_do_not_conflict(Orders):
    def conflicts(self, left, right):
        if left[0] in NOMINALS and right[0] in NOMINALS:
            return self.nominals_conflict(left[1], right[1])
        return super().conflicts(left, right)


@slip
class weakens_back(Orders):
    def weakens(self, term, target):
        return super().weakens(term, target) or super().weakens(target, term)


@slip
class weakens_to_the_same_access(Orders):
    def weakens(self, term, target):
        return super().weakens(term, target) or (term[0] in (REFERENCE, SET, MAP) and not self.conflicts(term, target))


@slip
class weakens_inside(Orders):
    def weakens(self, term, target):
        def weak(part):
            part = with_children(part, map(weak, children(part)))
            return (part[0], WEAK) + part[2:] if part[0] in (SET, MAP) else part
        return super().weakens(term, target) or (
            collection_access(term) == 1 and collection_access(target) == 0 and not self.conflicts(weak(term), target))


@slip
class weakens_to_unknown(Orders):
    def weakens(self, term, target):
        return super().weakens(term, target) or (collection_access(term) == 1 and target[0] in OPEN)


@slip
class references_do_not_weaken(Orders):
    def weakens(self, term, target):
        return term[0] != REFERENCE and super().weakens(term, target)


@slip
class weakens_without_comparing(Orders):
    def weakens(self, term, target):
        return term[0] == target[0] and collection_access(term) == 1 and collection_access(target) == 0 \
            or super().weakens(term, target)


# Order 11

@slip
class recovery_counts_access(Orders):
    def recovered(self, left, right):
        if left[0] in (SET, MAP) and left[0] == right[0] and left[1] != right[1]:
            return left
        return super().recovered(left, right)


@slip
class recovery_takes_the_right_access(Orders):
    def recovered(self, left, right):
        if left[0] in (SET, MAP) and left[0] == right[0]:
            left = (left[0], right[1]) + left[2:]
        return super().recovered(left, right)


@slip
class recovery_ignores_reference_access(Orders):
    def recovered(self, left, right):
        if left[0] == right[0] == REFERENCE:
            right = left[:2] + right[2:]
        return super().recovered(left, right)


@slip
class recovery_ignores_range_kind(Orders):
    def recovered(self, left, right):
        if left[0] == right[0] == RANGE:
            right = left[:2] + right[2:]
        return super().recovered(left, right)


@slip
class recovery_replaces_inference(Orders):
    def recovered(self, left, right):
        return right if left[0] == INFERENCE and right[0] not in RECOVERY else super().recovered(left, right)


@slip
class recovery_takes_no_inference(Orders):
    def recovered(self, left, right):
        return left if right[0] == INFERENCE else super().recovered(left, right)


@slip
class recovery_takes_error(Orders):
    def recovered(self, left, right):
        return right if left[0] == UNKNOWN and right[0] == ERROR else super().recovered(left, right)


@slip
class recovery_leaves_error(Orders):
    def recovered(self, left, right):
        return left if left[0] == ERROR else super().recovered(left, right)


@slip
class recovery_needs_equal_members(Orders):
    def nominal_recovered(self, left, right):
        return super().nominal_recovered(left, right) if member_names(left) == member_names(right) else left


@slip
class recovery_ignores_member_names(Orders):
    def nominal_recovered(self, left, right):
        if len(left[2]) == len(right[2]):
            right = right[:2] + (tuple((member, term) for (member, _), (_, term) in zip(left[2], right[2])),)
        return super().nominal_recovered(left, right)


@slip
class recovery_of_members_by_name(Orders):
    def nominal_recovered(self, left, right):
        found = super().nominal_recovered(left, right)
        if found is left:
            return left
        return found[:2] + (tuple((member, self.recovered(term, member_of(right, member) or THE_ERROR))
                                  for member, term in found[2]),)


@slip
class recovery_leaves_members(Orders):
    def nominal_recovered(self, left, right):
        return super().nominal_recovered(left, right)[:2] + left[2:]


@slip
class recovery_of_the_shared_length(Orders):
    def recovered(self, left, right):
        if left[0] == right[0] == TUPLE and len(left[1]) != len(right[1]):
            shared = min(len(left[1]), len(right[1]))
            return (TUPLE, tuple(map(self.recovered, left[1], right[1])) + left[1][shared:])
        return super().recovered(left, right)


@slip
class recovery_enters_projections(Orders):
    def recovered(self, left, right):
        if left[0] == right[0] == PROJECTION and left[3] == right[3] and len(left[4]) == len(right[4]):
            return (PROJECTION, self.recovered(left[1], right[1]), self.nominal_recovered(left[2], right[2]), left[3],
                    tuple(map(self.recovered, left[4], right[4])))
        return super().recovered(left, right)


@slip
class recovery_the_other_way_round(Orders):
    def recovered(self, left, right):
        return super().recovered(right, left)


# Orders 12 to 14 and 18

@slip
class an_inserted_term_is_followed(Orders):
    def substituted(self, term, replacement, steps=20):
        found = replacement(term)
        if found is not None:
            return self.substituted(found, replacement, steps - 1) if steps else found
        return with_children(term, [self.substituted(child, replacement, steps) for child in children(term)])


@slip
class substitution_leaves_projections(Orders):
    def substituted(self, term, replacement):
        return term if term[0] == PROJECTION else super().substituted(term, replacement)


@slip
class substitution_leaves_interfaces(Orders):
    def substituted(self, term, replacement):
        new = super().substituted(term, replacement)
        return (PROJECTION, new[1], term[2]) + new[3:] if term[0] == new[0] == PROJECTION else new


@slip
class substitution_leaves_members(Orders):
    def substituted(self, term, replacement):
        new = super().substituted(term, replacement)
        return (new[0], new[1][:2] + term[1][2:]) if term[0] == new[0] and term[0] in NOMINALS else new


@slip
class instantiate_without_receivers(Orders):
    def instantiated(self, substitution, term):
        return super().instantiated((substitution[0], {}), term)


@slip
class context_with_receivers(Orders):
    def argument_context(self, substitution, parameters, term):
        return self.substituted(term, lambda part: substitution[1].get(part[1]) if part[0] == SELF_TYPE
                                else substitution[0].get(part[1:], THE_UNKNOWN if part[1:] in parameters else None)
                                if part[0] == GENERIC else None)


@slip
class context_parameters_tried_first(Orders):
    def argument_context(self, substitution, parameters, term):
        return self.substituted(term, lambda part: (THE_UNKNOWN if part[1:] in parameters else substitution[0].get(part[1:]))
                                if part[0] == GENERIC else None)


@slip
class context_makes_every_generic_unknown(Orders):
    def argument_context(self, substitution, parameters, term):
        return self.substituted(term, lambda part: substitution[0].get(part[1:], THE_UNKNOWN)
                                if part[0] == GENERIC else None)


@slip
class with_self_of_every_owner(Orders):
    def with_self(self, owner, new, term):
        return self.substituted(term, lambda part: new if part[0] == SELF_TYPE else None)


@slip
class family_outer_entries_win(Orders):
    def family_applied(self, parameters, value, substitution, arguments):
        found = super().family_applied(parameters, value, substitution, arguments)
        if found is None:
            return None
        return self.instantiated(({**dict(zip(parameters, arguments)), **substitution[0]}, substitution[1]), value)


@slip
class family_first_parameter_wins(Orders):
    def family_applied(self, parameters, value, substitution, arguments):
        if len(parameters) != len(arguments):
            return None
        return super().family_applied(parameters[::-1], value, substitution, arguments[::-1])


@slip
class family_without_outer_entries(Orders):
    def family_applied(self, parameters, value, substitution, arguments):
        return super().family_applied(parameters, value, ({}, substitution[1]), arguments)


@slip
class family_without_outer_receivers(Orders):
    def family_applied(self, parameters, value, substitution, arguments):
        return super().family_applied(parameters, value, (substitution[0], {}), arguments)


@slip
class family_with_fewer_arguments(Orders):
    def family_applied(self, parameters, value, substitution, arguments):
        return super().family_applied(parameters[:len(arguments)], value, substitution, arguments)


@slip
class family_with_more_arguments(Orders):
    def family_applied(self, parameters, value, substitution, arguments):
        return super().family_applied(parameters, value, substitution, arguments[:len(parameters)])


@slip
class family_applied_in_two_steps(Orders):
    def family_applied(self, parameters, value, substitution, arguments):
        if len(parameters) != len(arguments):
            return None
        value = self.instantiated((dict(zip(parameters, arguments)), {}), value)
        return self.instantiated(substitution, value)


# Orders 15 and 16

@slip
class f32_is_an_integer(Orders):
    def is_integer(self, term):
        return term[0] == BUILTIN and term[1] <= 8


@slip
class u64_is_no_integer(Orders):
    def is_integer(self, term):
        return term[0] == BUILTIN and term[1] < 7


@slip
class never_inside(Orders):
    def is_never(self, term):
        return super().is_never(term) or any(map(self.is_never, children(term)))


@slip
class never_is_code_11(Orders):
    def is_never(self, term):
        return term == (BUILTIN, 11)


@slip
class generics_are_concrete(Orders):
    def is_concrete(self, term):
        return super().is_concrete(self.substituted(term, lambda part: (BUILTIN, 0) if part[0] == GENERIC else None))


@slip
class error_is_resolved(Orders):
    def is_unresolved(self, term):
        return term[0] in (INFERENCE, UNKNOWN) or any(map(self.is_unresolved, children(term)))


@slip
class unresolved_does_not_enter_projections(Orders):
    def is_unresolved(self, term):
        return term[0] != PROJECTION and super().is_unresolved(term)


@slip
class unknown_enters_projections(Orders):
    def contains_unknown(self, term):
        return term[0] in (INFERENCE, UNKNOWN) or any(map(self.contains_unknown, children(term)))


@slip
class unknown_counts_error(Orders):
    def contains_unknown(self, term):
        return term[0] == ERROR or super().contains_unknown(term)


@slip
class unknown_does_not_count_inference(Orders):
    def contains_unknown(self, term):
        return term[0] != INFERENCE and super().contains_unknown(term)


@slip
class self_type_not_in_projections(Orders):
    def contains_self_type(self, term):
        return term[0] != PROJECTION and super().contains_self_type(term)


@slip
class self_type_not_in_members(Orders):
    def contains_self_type(self, term):
        if term[0] in NOMINALS:
            return any(map(self.contains_self_type, term[1][1]))
        return super().contains_self_type(term)


@slip
class projection_only_at_the_top(Orders):
    def questions(self, term):
        return super().questions(term)[:6] + [term[0] == PROJECTION]


@slip
class questions_in_another_order(Orders):
    def questions(self, term):
        found = super().questions(term)
        return found[:2] + [found[3], found[2]] + found[4:]


@slip
class projections_resolved_without_parameters(Orders):
    def resolved_in(self, parameters, term):
        if term[0] == PROJECTION:
            return all(self.resolved_in(parameters, child) for child in children(term))
        return super().resolved_in(parameters, term)


@slip
class projections_never_resolved(Orders):
    def resolved_in(self, parameters, term):
        return term[0] != PROJECTION and super().resolved_in(parameters, term)


@slip
class resolved_by_the_receiver_alone(Orders):
    def resolved_in(self, parameters, term):
        if term[0] == PROJECTION and parameters:
            return self.resolved_in(parameters, term[1])
        return super().resolved_in(parameters, term)


@slip
class self_type_resolved_in_parameters(Orders):
    def resolved_in(self, parameters, term):
        return bool(parameters) and term[0] == SELF_TYPE or super().resolved_in(parameters, term)


# Order 17

@slip
class satisfies_needs_equal_members(Orders):
    def satisfies(self, nominal, required):
        return nominal == required


@slip
class satisfies_ignores_arguments(Orders):
    def satisfies(self, nominal, required):
        return super().satisfies((required[0], required[1], nominal[2]), required) if nominal[0] == required[0] else False


@slip
class satisfies_the_other_way_round(Orders):
    def satisfies(self, nominal, required):
        return super().satisfies(required, nominal)


@slip
class satisfies_if_a_member_is_unknown_to_it(Orders):
    def satisfies(self, nominal, required):
        return nominal[:2] == required[:2] and all(member_of(nominal, member) in (None, term) for member, term in required[2])


@slip
class reflexive_for_any_receiver(Orders):
    def is_reflexive(self, nominal, receiver, member, term):
        return term[0] == PROJECTION and super().is_reflexive(nominal, term[1], member, term)


@slip
class reflexive_for_any_member(Orders):
    def is_reflexive(self, nominal, receiver, member, term):
        return term[0] == PROJECTION and super().is_reflexive(nominal, receiver, term[3], term)


@slip
class reflexive_with_arguments(Orders):
    def is_reflexive(self, nominal, receiver, member, term):
        return term[0] == PROJECTION and super().is_reflexive(nominal, receiver, member, term[:4] + ((),))


@slip
class reflexive_for_any_interface(Orders):
    def is_reflexive(self, nominal, receiver, member, term):
        return term[0] == PROJECTION and super().is_reflexive(nominal, receiver, member, term[:2] + (nominal,) + term[3:])


@slip
class reflexive_for_the_equal_interface_only(Orders):
    def is_reflexive(self, nominal, receiver, member, term):
        return super().is_reflexive(nominal, receiver, member, term) and term[2] == nominal


@slip
class reflexive_inside(Orders):
    def is_reflexive(self, nominal, receiver, member, term):
        return super().is_reflexive(nominal, receiver, member, term) or (
            term[0] == PROJECTION and term[1] == receiver and term[3] == member and term[4] == ()
            and self.satisfies_for(nominal, term[2], receiver))


@slip
class satisfies_for_without_reflexive(Orders):
    def is_reflexive(self, nominal, receiver, member, term):
        return False


@slip
class reflexive_only_if_not_known(Orders):
    def is_reflexive(self, nominal, receiver, member, term):
        return member_of(nominal, member) is None and super().is_reflexive(nominal, receiver, member, term)


# Orders 19 and 20

@slip
class walked_without_any_projection(Orders):
    def walked_from(self, term, lookup):
        return self.walked(term, lookup, 0)


@slip
class branches_without_projection_not_walked(Orders):
    def walked(self, term, lookup, depth):
        return super().walked(term, lookup, depth) if self.contains_projection(term) else term


@slip
class depth_starts_at_1(Orders):
    def walked_from(self, term, lookup):
        return self.walked(term, lookup, 1) if self.contains_projection(term) else term


class ChangedWalk(Orders):
    """A walk with steps that can be replaced."""

    def counted(self, parts):
        return len(parts)

    def value_for(self, projection, lookup):
        value = self.own_member(projection)
        return lookup(projection) if value is None else value

    def replaced(self, value, term, lookup, depth):
        return THE_ERROR if value == term else self.walked(value, lookup, depth + 1)

    def walk_children(self, term, lookup, depth):
        return with_children(term, [self.walked(part, lookup, depth + 1) for part in children(term)])

    def walked(self, term, lookup, depth):
        if depth > self.DEPTH or self.visits_left == 0:
            return THE_ERROR
        self.visits_left -= 1
        self.children_met += self.counted(children(term))
        if self.children_met > self.CHILDREN:
            raise Refused(9)
        term = self.walk_children(term, lookup, depth)
        if term[0] != PROJECTION:
            return term
        value = self.value_for(term, lookup)
        return term if value is None else self.replaced(value, term, lookup, depth)


@slip
class a_value_is_not_walked(ChangedWalk):
    def replaced(self, value, term, lookup, depth):
        return THE_ERROR if value == term else value


@slip
class a_value_at_the_same_depth(ChangedWalk):
    def replaced(self, value, term, lookup, depth):
        return THE_ERROR if value == term else self.walked(value, lookup, depth)


@slip
class a_value_equal_to_the_projection_stays(ChangedWalk):
    def replaced(self, value, term, lookup, depth):
        return term if value == term else self.walked(value, lookup, depth + 1)


@slip
class a_value_equal_to_the_projection_is_walked(ChangedWalk):
    def replaced(self, value, term, lookup, depth):
        return self.walked(value, lookup, depth + 1)


@slip
class a_replacement_counts_as_a_child(ChangedWalk):
    def replaced(self, value, term, lookup, depth):
        self.children_met += 1
        return super().replaced(value, term, lookup, depth)


@slip
class a_replacement_takes_no_visit(ChangedWalk):
    def replaced(self, value, term, lookup, depth):
        self.visits_left += self.visits_left > 0
        return super().replaced(value, term, lookup, depth)


@slip
class children_of_replacements_do_not_count(ChangedWalk):
    def replaced(self, value, term, lookup, depth):
        if value != term and depth < self.DEPTH and self.visits_left:
            self.children_met -= len(children(value))
        return super().replaced(value, term, lookup, depth)


@slip
class unvisited_children_do_not_count(ChangedWalk):
    def counted(self, parts):
        return min(len(parts), self.visits_left)


@slip
class no_refusal_9(ChangedWalk):
    CHILDREN = 1 << 30


@slip
class refusal_9_when_visits_are_spent(Orders):
    def walked(self, term, lookup, depth):
        if self.visits_left == 0:
            raise Refused(9)
        return super().walked(term, lookup, depth)


@slip
class visits_of_each_branch(ChangedWalk):
    def walked(self, term, lookup, depth):
        if depth == 1:
            self.visits_left = self.VISITS - 1
        return super().walked(term, lookup, depth)


class OtherOrder(ChangedWalk):
    def order_of(self, term):
        return range(len(children(term)))

    def walk_children(self, term, lookup, depth):
        parts = list(children(term))
        for at in self.order_of(term):
            parts[at] = self.walked(parts[at], lookup, depth + 1)
        return with_children(term, parts)


@slip
class children_walked_from_the_last(OtherOrder):
    def order_of(self, term):
        return reversed(range(len(children(term))))


@slip
class nominal_arguments_walked_first(OtherOrder):
    def order_of(self, term):
        count = len(children(term))
        members = len(term[1][2]) if term[0] in NOMINALS else 0
        return list(range(members, count)) + list(range(members))


@slip
class receiver_walked_first(OtherOrder):
    def order_of(self, term):
        count = len(children(term))
        arguments = len(term[4]) if term[0] == PROJECTION else 0
        return sorted(range(count), key=lambda at: (at != arguments, at))


@slip
class interface_arguments_walked_before_members(OtherOrder):
    def order_of(self, term):
        count = len(children(term))
        first = len(term[4]) + 1 if term[0] == PROJECTION else count
        members = len(term[2][2]) if term[0] == PROJECTION else 0
        return list(range(first)) + list(range(first + members, count)) + list(range(first, min(first + members, count)))


@slip
class own_member_with_arguments(Orders):
    def own_member(self, projection):
        return super().own_member(projection[:4] + ((),))


@slip
class no_interface_member(Orders):
    def own_member(self, projection):
        return super().own_member(projection[:2] + ((0, (), ()),) + projection[3:])


@slip
class no_trait_member(Orders):
    def own_member(self, projection):
        return super().own_member((PROJECTION, THE_UNKNOWN) + projection[2:])


@slip
class trait_member_of_its_declaration_only(Orders):
    def own_member(self, projection):
        _, receiver, interface, _, _ = projection
        if receiver[0] == TRAIT and receiver[1][0] != interface[0]:
            projection = (PROJECTION, THE_UNKNOWN) + projection[2:]
        return super().own_member(projection)


@slip
class trait_member_first(Orders):
    def own_member(self, projection):
        _, receiver, _, member, arguments = projection
        if not arguments and receiver[0] == TRAIT and member_of(receiver[1], member) is not None:
            return member_of(receiver[1], member)
        return super().own_member(projection)


@slip
class struct_receiver_has_an_own_member(Orders):
    def own_member(self, projection):
        if projection[1][0] == STRUCT:
            projection = (PROJECTION, (TRAIT, projection[1][1])) + projection[2:]
        return super().own_member(projection)


@slip
class rules_before_own_members(ChangedWalk):
    def value_for(self, projection, lookup):
        value = lookup(projection)
        return self.own_member(projection) if value is None else value


class OtherRules(Orders):
    def normalised(self, rules, term):
        def lookup(projection):
            _, receiver, interface, member, arguments = projection
            for rule in self.arranged(rules):
                if self.fits(rule, interface, receiver, member, arguments):
                    return rule[4]
            return None
        return self.walked_from(term, lookup)

    def arranged(self, rules):
        return rules

    def fits(self, rule, interface, receiver, member, arguments):
        return rule[:4] == (interface, receiver, member, arguments)


@slip
class the_last_rule_answers(OtherRules):
    def arranged(self, rules):
        return reversed(rules)


@slip
class only_the_first_rule(OtherRules):
    def arranged(self, rules):
        return rules[:1]


@slip
class rule_without_interface_members(OtherRules):
    def fits(self, rule, interface, receiver, member, arguments):
        return super().fits((rule[0][:2],) + rule[1:], interface[:2], receiver, member, arguments)


@slip
class rule_without_interface_arguments(OtherRules):
    def fits(self, rule, interface, receiver, member, arguments):
        return super().fits((rule[0][::2],) + rule[1:], interface[::2], receiver, member, arguments)


@slip
class rule_without_declaration(OtherRules):
    def fits(self, rule, interface, receiver, member, arguments):
        return super().fits((rule[0][1:],) + rule[1:], interface[1:], receiver, member, arguments)


@slip
class rule_without_receiver(OtherRules):
    def fits(self, rule, interface, receiver, member, arguments):
        return super().fits(rule, interface, rule[1], member, arguments)


@slip
class rule_with_recoverable_receiver(OtherRules):
    def fits(self, rule, interface, receiver, member, arguments):
        return super().fits(rule, interface, rule[1], member, arguments) and not self.conflicts(rule[1], receiver)


@slip
class rule_without_member(OtherRules):
    def fits(self, rule, interface, receiver, member, arguments):
        return super().fits(rule, interface, receiver, rule[2], arguments)


@slip
class rule_without_arguments(OtherRules):
    def fits(self, rule, interface, receiver, member, arguments):
        return super().fits(rule, interface, receiver, member, rule[3])


@slip
class rule_with_the_first_arguments(OtherRules):
    def fits(self, rule, interface, receiver, member, arguments):
        return super().fits(rule, interface, receiver, member, rule[3]) and all(a == b for a, b in zip(arguments, rule[3]))


class OtherOutputs(Orders):
    def with_associated_types(self, term, interface, owner):
        def lookup(projection):
            _, receiver, projected, member, arguments = projection
            if not self.concerns(arguments, projected, interface, receiver, owner):
                return None
            output = member_of(interface, member)
            if output is not None:
                return self.given(output, projection)
            return self.put_in(projected, interface, receiver, owner, member)
        return self.walked_from(term, lookup)

    def concerns(self, arguments, projected, interface, receiver, owner):
        return not arguments and projected[0] == interface[0] and receiver == owner

    def given(self, output, projection):
        return output if output != projection else None

    def put_in(self, projected, interface, receiver, owner, member):
        return (PROJECTION, receiver, interface, member, ()) if projected != interface else None


@slip
class output_with_arguments(OtherOutputs):
    def concerns(self, arguments, projected, interface, receiver, owner):
        return super().concerns((), projected, interface, receiver, owner)


@slip
class output_of_any_declaration(OtherOutputs):
    def concerns(self, arguments, projected, interface, receiver, owner):
        return super().concerns(arguments, interface, interface, receiver, owner)


@slip
class output_needs_equal_arguments(OtherOutputs):
    def concerns(self, arguments, projected, interface, receiver, owner):
        return super().concerns(arguments, projected, interface, receiver, owner) and projected[1] == interface[1]


@slip
class output_for_any_receiver(OtherOutputs):
    def concerns(self, arguments, projected, interface, receiver, owner):
        return super().concerns(arguments, projected, interface, owner, owner)


@slip
class output_equal_to_the_projection_is_error(OtherOutputs):
    def given(self, output, projection):
        return output


@slip
class the_interface_is_not_put_in(OtherOutputs):
    def put_in(self, projected, interface, receiver, owner, member):
        return None


@slip
class an_equal_interface_is_put_in(OtherOutputs):
    def put_in(self, projected, interface, receiver, owner, member):
        return (PROJECTION, receiver, interface, member, ())


# Bases of slips, without a fault of their own: nothing may tell them from Orders.
PLAIN = (ChangedWalk, OtherOrder, OtherRules, OtherOutputs)
