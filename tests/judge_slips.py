"""Slips put into the oracle, one at a time: tests/judge.py --slip must find each.

Only proved code is built, so the fault stands on the other side: in what is
taken from the Rust (taken_*.rs) or in the files of tests/oracle around it. A
library that touches what it should not is played by lent.rs, which does so
after the call; one that answers otherwise where the oracle has left the sheet,
by judge.rs, which tells its run. A slip is a file, a pattern that must be
found there exactly once, and what is put in its place.
"""

import re

SOLVER, TYPES, WALK = "taken_solver.rs", "taken_types.rs", "taken_associated.rs"
FALSE = "if false {"
CALL = r"let reason = self\.call\(\);"

# Each row: name, file, pattern, replacement.
ROWS = (
    # The slips that document 01 lists.
    ("projections_entered", SOLVER, r"// Projections are not", "(TypeId::Projection { .. }, TypeId::Projection { .. }) => true,\n//"),
    ("tuple_for_a_number", SOLVER, r"_ => false,(\s+\};\s+if !adm)", r"TypeId::Tuple(_) => true, _ => false,\1"),
    ("unknown_frozen", SOLVER, r"if recovery \{", FALSE),
    ("inserted_term_followed", "orders.rs", r"term\.instantiate\(&substitution\)",
     "term.instantiate(&substitution).instantiate(&substitution)"),
    # The solver.
    ("occurs_not_asked", SOLVER, r"if occurs \{", FALSE),
    ("right_variable_bound", SOLVER, r"(\(TypeId::Inference\(id\), ty\)) \| (\(ty, TypeId::Inference\(id\)\))", r"\2 | \1"),
    ("other_fallback_kept", SOLVER, r"numeric\.insert\(\*other, fallback\)", "numeric.entry(*other).or_insert(fallback)"),
    ("family_not_handed_on", SOLVER, r"self\.numeric\.insert\(\*other, fallback\);", "let _ = other;"),
    ("f32_floating", SOLVER, r"let floating = fallback == BuiltinType::F64;",
     "let floating = matches!(fallback, BuiltinType::F32 | BuiltinType::F64);"),
    ("children_in_another_order", SOLVER, r"a\.into_iter\(\)\.zip\(b\)", "a.into_iter().zip(b).rev()"),
    ("set_access_compared", SOLVER, r"(\(TypeId::Range\(_, a\), )", r"(TypeId::Set(_, a), TypeId::Set(_, b)) => a == b,\n\1"),
    ("reference_access_not_compared", SOLVER, r"(access: b, \.\. \},\s+\)) => a == b", r"\1 => a == b || true"),
    ("stops_at_a_clash", SOLVER, r"\} else \{\s+compatible = false;\s+\}", "} else { return Ok(false); }"),
    ("number_variable_in_slot_0", SOLVER, r"self\.variable\(site, 1\)", "self.variable(site, 0)"),
    ("second_request_ignored", SOLVER, r"numeric\.insert\(id, fallback\)", "numeric.entry(id).or_insert(fallback)"),
    ("never_default_not_counted", SOLVER, r"(BuiltinType::Never\)\);\s+)self\.revision \+= 1;", r"\1"),
    ("numeric_defaults_by_falling_id", SOLVER, r"sort_by_key\(\|\(id, _\)\| \*id\)", "sort_by_key(|(id, _)| std::cmp::Reverse(*id))"),
    ("revision_off_by_one", "sheets.rs", r"solver\.revision\)", "solver.revision.saturating_sub(1))"),
    ("one_check_less", "sheets.rs", r"Cell::new\(checks\)", "Cell::new(checks.saturating_sub(1))"),
    # Terms.
    ("recovery_skips_sets", TYPES, r"(fn recover_from.*?)\| \(Self::Set\(left, _\), Self::Set\(right, _\)\)", r"\1"),
    ("unknown_seen_in_projections", TYPES, r"(fn contains_unknown.*?pending\.push\(target\),)",
     r"\1 Self::Projection { receiver, .. } => pending.push(receiver),"),
    ("context_tries_receivers", TYPES, r"(fn argument_context.*?&Self::Unknown\)\),)",
     r"\1 Self::SelfType(owner) => substitution.receiver(owner),"),
    ("outer_entry_wins", TYPES, r"Some\(self\.value\.inst",
     "substitution.extend(outer.iter().map(|(at, term)| (at.clone(), term.clone())));\nSome(self.value.inst"),
    ("first_entry_wins", "format.rs", r"entries\.into_iter\(\)", "entries.into_iter().rev()"),
    ("access_never_conflicts", TYPES, r"left\.collection_access\(\) != right", "left.collection_access() == None && None != right"),
    ("read_only_weakens", TYPES, r"self\.collection_access\(\) == Some\(Mutable\)", "self.collection_access().is_some()"),
    # Normalising.
    ("last_rule_wins", "orders.rs", r"rules\.iter\(\)\.find", "rules.iter().rev().find"),
    ("depth_65", WALK, r"depth > 64", "depth > 65"),
    ("visits_8191", WALK, r"&mut 8192", "&mut 8191"),
    ("equal_value_stays", WALK, r"return TypeId::Error;(\s+\}\s+return walk)", r"return ty;\1"),
    ("own_member_with_arguments", WALK, r"arguments\s+\.is_empty\(\)(\s+\.then\(\|\| interface)", r"true\1"),
    # Limits, refusals, the run.
    ("children_8193", "orders.rs", r"usize = 8192", "usize = 8193"),
    ("nodes_2047", "format.rs", r"usize = 2048", "usize = 2047"),
    ("levels_199", "format.rs", r"usize = 200", "usize = 199"),
    ("variables_511", "sheets.rs", r"usize = 512", "usize = 511"),
    ("one_unissued_taken", "format.rs", r"\(id as usize\) < self\.issued", "(id as usize) <= self.issued"),
    ("members_may_repeat", "format.rs", r"last >= Some\(member\)", "last > Some(member)"),
    ("number_of_five_full_groups", "format.rs", r"byte > 0x0f", "byte > 0x1f"),
    ("nodes_before_leftover_bytes", "format.rs", r"if !self\.is_used_up\(\) \{", "if !self.is_used_up() && self.nodes <= NODES {"),
    ("pairs_keep_no_nodes", "sheets.rs", r"self\.kept = fields\.nodes\(\);", ""),
    ("pairs_keep_in_any_case", "sheets.rs", r"if solver\.revision != before \{", "if true {"),
    ("pairs_keep_where_they_bind_nothing", "sheets.rs", r"solver\.revision != before", "solver.revision == before"),
    ("incompatible_pairs_keep_no_nodes", "sheets.rs", r"if solver\.revision != before \{",
     "if solver.revision != before && !matches!(answer, Some(Ok(false))) {"),
    ("cancelled_pairs_keep_no_nodes", "sheets.rs", r"if solver\.revision != before \{",
     "if solver.revision != before && !matches!(answer, Some(Err(_))) {"),
    ("cancelled_pairs_keep_in_any_case", "sheets.rs", r"if solver\.revision != before \{",
     "if solver.revision != before || matches!(answer, Some(Err(_))) {"),
    # Order 22, of which the oracle has the refusals alone. The first poses it as order 4.
    ("order_22_is_order_4", "sheets.rs", r"if kind == STRICT \{", FALSE),
    ("order_22_unlisted", "sheets.rs", r"\*kind == RANGED \|\| \*kind == STRICT", "*kind == RANGED"),
    ("order_22_takes_any_id", "sheets.rs", r"with_issued\(self\.solver\.issued\(\)\)", "with_issued(if kind == STRICT { 1 << 32 } else { self.solver.issued() })"),
    ("kind_21_is_order_22", "sheets.rs", r"=> outcome\(self\.value\(\*kind,", "=> outcome(self.value(if *kind == RANGED { STRICT } else { *kind },"),
    # Order 21, of which the oracle has the refusals alone. Where a slip has none, the oracle leaves the sheet, and that is not told from an order 21 that is answered.
    ("order_21_unlisted", "sheets.rs", r"\*kind == RANGED \|\| \*kind == STRICT", "*kind == STRICT"),
    ("refusal_13_before_leftover_bytes", "sheets.rs", r"fields\.end\(\)\?;\n( *)refuse_bounds\(&low, &high\)\?;", r"refuse_bounds(&low, &high)?;\n\1fields.end()?;"),
    ("refusal_13_after_8", "sheets.rs", r"refuse_bounds\(&low, &high\)\?;\n( *)self\.place\(Place::Expression\(site, 1\)\)\?;",
     r"self.place(Place::Expression(site, 1))?;\n\1refuse_bounds(&low, &high)?;"),
    ("sign_over_1_is_2", "sheets.rs", r"\(sign, high, low\) = \(fields\.byte\(\)\?,",
     "(sign, high, low) = (match fields.byte()? { 2.. => return Err(Refused(2)), sign => sign },"),
    ("refusal_13_is_2", "sheets.rs", r"Refused\(13\)", "Refused(2)"),
    ("equal_bounds_refused", "sheets.rs", r"least > most", "least >= most"),
    ("bounds_of_32_bits", "sheets.rs", r"u64::from\(high\) << 32 \| ", ""),
    # A library that answers otherwise where the oracle has left the sheet: the reference finds it.
    ("answers_end_where_the_oracle_leaves", "judge.rs", r"left\.push\(frame\.told\(&found\)\)",
     "left.push(frame.told(&Found { reason: found.reason, orders: found.orders, answers: wanted.answers.clone(), touched: vec![] }))"),
    ("last_byte_where_the_oracle_has_left", "judge.rs", r"hexadecimal\(&run\.answers\)\)",
     "{ let mut all = run.answers.clone(); if let Some(last) = all.last_mut() { *last ^= 1; } hexadecimal(&all) })"),
    ("an_order_more_where_the_oracle_has_left", "judge.rs", r"run\.reason, run\.orders\)", "run.reason, run.orders + 1)"),
    ("another_reason_where_the_oracle_has_left", "judge.rs", r"run\.reason, run\.orders\)", "if run.reason == 0 { 10 } else { run.reason }, run.orders)"),
    ("run_11_a_byte_early", "sheets.rs", r"framed\.len\(\) > room", "framed.len() >= room"),
    # What is lent.
    ("area_left", "lent.rs", CALL, r"\g<0> if reason != 12 { self.areas[2].all[GUARD + 9] = 1; }"),
    ("word_past_16384_left", "lent.rs", CALL,
     r"\g<0> if reason != 12 && self.areas[3].length > LEAST_WORDS { self.areas[3].all[GUARD + LEAST_WORDS] = room.fill; }"),
    ("areas_cleared_under_12", "lent.rs", CALL, r"\g<0> if reason == 12 { self.areas[0].items_mut().fill(0); }"),
    ("byte_before_the_output", "lent.rs", CALL, r"\g<0> self.out.all[GUARD - 1] = 0;"),
    ("word_behind_an_area", "lent.rs", CALL, r"\g<0> self.areas[1].all[GUARD + room.words[1]] = 0;"),
    ("last_byte_of_the_output", "lent.rs", CALL, r"\g<0> if let Some(last) = self.out.items_mut().last_mut() { *last ^= 1; }"),
    ("byte_of_the_sheet", "lent.rs", CALL, r"\g<0> if let Some(last) = self.sheet.items_mut().last_mut() { *last ^= 1; }"),
)
SLIPS = {row[0]: row[1:] for row in ROWS}


class NotThere(Exception):
    pass


def put_in(name, texts):
    """The files with a slip in one of them."""
    file, pattern, new = SLIPS[name]
    text, count = re.subn(pattern, new, texts[file], flags=re.DOTALL)
    if count != 1:
        raise NotThere("slip %s: its place is found %d times in %s" % (name, count, file))
    return {**texts, file: text}
