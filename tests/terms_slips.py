"""Readers with one deliberate fault each; SLIPS gives them by name. slips.py says what for."""

from slips import Registry
from terms_reference import FIELDS, Reader, Refused

SLIPS = Registry(Reader)
slip, constant = SLIPS.slip, SLIPS.constant


# Limits and tables

constant("levels_201", LEVELS=201)
constant("levels_199", LEVELS=199)
constant("nodes_2049", NODES=2049)
constant("nodes_2047", NODES=2047)
constant("code_32_listed", CODES=33)
constant("code_31_unlisted", CODES=31)
constant("access_2_listed", ACCESSES=3)
constant("access_1_unlisted", ACCESSES=1)
constant("range_kind_4_listed", RANGE_KINDS=5)
constant("range_kind_3_unlisted", RANGE_KINDS=3)
constant("tag_20_listed", FIELDS={**FIELDS, 20: ()})
constant("tag_19_unlisted", FIELDS={t: f for t, f in FIELDS.items() if t != 19})
constant("map_without_access", FIELDS={**FIELDS, 10: ("one_term", "one_term")})
constant("function_without_result", FIELDS={**FIELDS, 6: ("terms",)})
constant("generic_without_position", FIELDS={**FIELDS, 17: ("one_number",)})
constant("projection_without_arguments",
         FIELDS={**FIELDS, 18: ("one_term", "nominal", "one_number")})
constant("interface_first",
         FIELDS={**FIELDS, 18: ("nominal", "one_term", "one_number", "terms")})
constant("number_one_too_large", MOST=4294967296)
constant("number_one_too_small", MOST=4294967294)
constant("number_33_bits", MOST=8589934591)
constant("input_unbounded", INPUT=1 << 30)
constant("input_32767", INPUT=32767)
constant("output_32768", OUTPUT=32768)

# These show only in whole inputs, not in single frames.
RUN_SLIPS = ("input_unbounded", "input_32767", "output_32768")


# Numbers

@slip
class final_zero_allowed(Reader):
    def number(self):
        value, weight = 0, 1
        while True:
            byte = self.byte()
            value += byte % 128 * weight
            least = value if byte < 128 else value + 128 * weight
            if least > self.MOST:
                raise Refused(3)
            if byte < 128:
                return value
            weight *= 128


@slip
class large_number_refused_at_its_end(Reader):
    def number(self):
        value, weight = 0, 1
        while True:
            byte = self.byte()
            value += byte % 128 * weight
            if byte < 128:
                if value > self.MOST or byte == 0 and weight > 1:
                    raise Refused(3)
                return value
            weight *= 128


# Members and ids

@slip
class members_may_repeat(Reader):
    def members(self, level):
        parts = [self.number()]
        last = -1
        for _ in range(parts[0]):
            member = self.number()
            if member < last:
                raise Refused(5)
            last = member
            parts += [member, self.term(level)]
        return parts


@slip
class members_may_fall(Reader):
    def members(self, level):
        parts = [self.number()]
        last = -1
        for _ in range(parts[0]):
            member = self.number()
            if member == last:
                raise Refused(5)
            last = member
            parts += [member, self.term(level)]
        return parts


@slip
class members_compared_with_the_first(Reader):
    def members(self, level):
        parts = [self.number()]
        first = -1
        for index in range(parts[0]):
            member = self.number()
            if member <= first:
                raise Refused(5)
            if index == 0:
                first = member
            parts += [member, self.term(level)]
        return parts


@slip
class member_0_refused(Reader):
    def members(self, level):
        parts = [self.number()]
        last = 0
        for _ in range(parts[0]):
            member = self.number()
            if member <= last:
                raise Refused(5)
            last = member
            parts += [member, self.term(level)]
        return parts


@slip
class member_refused_after_its_term(Reader):
    def members(self, level):
        parts = [self.number()]
        last = -1
        for _ in range(parts[0]):
            member = self.number()
            parts += [member, self.term(level)]
            if member <= last:
                raise Refused(5)
            last = member
        return parts


@slip
class members_refused_after_the_list(Reader):
    def members(self, level):
        parts = [self.number()]
        for _ in range(parts[0]):
            parts += [self.number(), self.term(level)]
        numbers = parts[1::2]
        if any(b <= a for a, b in zip(numbers, numbers[1:])):
            raise Refused(5)
        return parts


@slip
class id_equal_to_issued(Reader):
    def inference_id(self, level):
        value = self.number()
        if value > self.issued:
            raise Refused(6)
        return [value]


@slip
class ids_unchecked(Reader):
    def inference_id(self, level):
        return [self.number()]


@slip
class ids_unchecked_in_bare_nominals(Reader):
    def bare_nominal(self):
        self.issued = self.MOST + 1
        return super().bare_nominal()


@slip
class ids_refused_after_reading(Reader):
    late = False

    def inference_id(self, level):
        value = self.number()
        self.late = self.late or value >= self.issued
        return [value]

    def value_of(self, tree):
        value = super().value_of(tree)
        if self.late:
            raise Refused(6)
        return value


# Levels

@slip
class tag_before_level(Reader):
    def term(self, level):
        tag = self.byte()
        if tag not in self.FIELDS:
            raise Refused(2)
        if level > self.LEVELS:
            raise Refused(4)
        return tag, self.row(self.FIELDS[tag], level + 1)


@slip
class early_end_before_level(Reader):
    def term(self, level):
        tag = self.byte()
        if level > self.LEVELS:
            raise Refused(4)
        if tag not in self.FIELDS:
            raise Refused(2)
        return tag, self.row(self.FIELDS[tag], level + 1)


@slip
class interface_at_projection_level(Reader):
    FIELDS = {**FIELDS, 18: ("one_term", "interface", "one_number", "terms")}

    def interface(self, level):
        return self.nominal(level - 1)


@slip
class interface_two_levels_below(Reader):
    FIELDS = {**FIELDS, 18: ("one_term", "interface", "one_number", "terms")}

    def interface(self, level):
        return self.nominal(level + 1)


@slip
class receiver_at_projection_level(Reader):
    FIELDS = {**FIELDS, 18: ("receiver", "nominal", "one_number", "terms")}

    def receiver(self, level):
        return self.one_term(level - 1)


@slip
class members_one_level_further_down(Reader):
    def members(self, level):
        return super().members(level + 1)


@slip
class bare_nominal_starts_at_level_2(Reader):
    def bare_nominal(self):
        return None, self.nominal(2)


@slip
class bare_nominal_starts_at_level_0(Reader):
    def bare_nominal(self):
        return None, self.nominal(0)


# Counts, leftover bytes, nodes, tokens

@slip
class count_compared_with_the_bytes_left(Reader):
    def terms(self, level):
        start = self.at
        count = self.number()
        if count > len(self.data) - self.at:
            raise Refused(1)
        self.at = start
        return super().terms(level)


@slip
class leftover_allowed(Reader):
    def used_up(self):
        pass


@slip
class nodes_refused_before_leftover(Reader):
    def value_of(self, tree):
        if self.nodes(tree) > self.NODES:
            raise Refused(7)
        return super().value_of(tree)


@slip
class nodes_refused_while_reading(Reader):
    met = 0

    def term(self, level):
        self.met += 1
        if self.met > self.NODES:
            raise Refused(7)
        return super().term(level)


@slip
class bare_nominal_is_a_node(Reader):
    def nodes(self, tree):
        return super().nodes(tree) + (tree[0] is None)


@slip
class interface_is_a_node(Reader):
    def nodes(self, tree):
        return super().nodes(tree) + (tree[0] == 18)


@slip
class bare_nominal_without_head(Reader):
    def tokens(self, tree):
        return super().tokens(tree) - (tree[0] is None)


@slip
class inference_takes_two_tokens(Reader):
    def tokens(self, tree):
        return super().tokens(tree) + (tree[0] == 1)


@slip
class codes_take_no_token(Reader):
    def tokens(self, tree):
        return super().tokens(tree) - (tree[0] in (0, 4, 8, 10, 11))


@slip
class access_lost(Reader):
    def access(self, level):
        super().access(level)
        return [0]


@slip
class kind_3_listed(Reader):
    def frame(self):
        if self.data[:1] == b"\x03":
            self.data = b"\x02" + self.data[1:]
        return super().frame()
