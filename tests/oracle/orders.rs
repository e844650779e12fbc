//! Orders 9 to 20: the fields, then Kagari's function on them.

use crate::format::{Read, Reader, Refused, put_term};
use crate::kagari::{AssociatedTypeFamily, AssociatedTypeParameters, NominalType, TypeId, associated, within_children};
use crate::standins::{DefinitionId, GenericBounds};

/// Children of all terms that a visit was spent on.
const CHILDREN: usize = 8192;

/// The outcome byte and, on outcome 0, the value. So many nodes are kept already.
pub fn answer(order: &[u8], kept: usize) -> Vec<u8> {
    match value(&mut Reader::new(order).keeping(kept)) {
        Ok(value) => [vec![0], value].concat(),
        Err(Refused(refusal)) => vec![refusal],
    }
}

fn value(fields: &mut Reader) -> Read<Vec<u8>> {
    match fields.byte()? {
        9 => conflicts(fields),
        10 => weakens(fields),
        11 => recover(fields),
        12 => instantiate(fields),
        13 => argument_context(fields),
        14 => with_self(fields),
        15 => questions(fields),
        16 => resolved_in(fields),
        17 => satisfied(fields),
        18 => family(fields),
        19 => with_associated_types(fields),
        20 => normalise(fields),
        _ => Err(Refused(2)),
    }
}

pub fn bytes_of(term: &TypeId) -> Vec<u8> {
    let mut out = Vec::new();
    put_term(&mut out, term);
    out
}

fn conflicts(fields: &mut Reader) -> Read<Vec<u8>> {
    let (left, right) = (fields.term(1)?, fields.term(1)?);
    fields.end()?;
    Ok(vec![left.conflicts_with(&right).into()])
}

fn weakens(fields: &mut Reader) -> Read<Vec<u8>> {
    let (term, target) = (fields.term(1)?, fields.term(1)?);
    fields.end()?;
    Ok(vec![term.can_weaken_to(&target).into()])
}

fn recover(fields: &mut Reader) -> Read<Vec<u8>> {
    let (mut left, right) = (fields.term(1)?, fields.term(1)?);
    fields.end()?;
    left.recover_from(&right);
    Ok(bytes_of(&left))
}

fn instantiate(fields: &mut Reader) -> Read<Vec<u8>> {
    let (substitution, term) = (fields.substitution()?, fields.term(1)?);
    fields.end()?;
    Ok(bytes_of(&term.instantiate(&substitution)))
}

fn argument_context(fields: &mut Reader) -> Read<Vec<u8>> {
    let (substitution, parameters, term) = (fields.substitution()?, fields.parameters()?, fields.term(1)?);
    fields.end()?;
    Ok(bytes_of(&term.argument_context(&substitution, &parameters)))
}

fn with_self(fields: &mut Reader) -> Read<Vec<u8>> {
    let (owner, replacement, term) = (fields.definition()?, fields.term(1)?, fields.term(1)?);
    fields.end()?;
    Ok(bytes_of(&term.with_self(&owner, &replacement)))
}

fn questions(fields: &mut Reader) -> Read<Vec<u8>> {
    let term = fields.term(1)?;
    fields.end()?;
    let answers = [
        term.is_never(),
        term.is_integer(),
        term.is_concrete(),
        term.is_unresolved(),
        term.contains_unknown(),
        term.contains_self_type(),
        term.contains_projection(),
    ];
    Ok(answers.map(u8::from).to_vec())
}

fn resolved_in(fields: &mut Reader) -> Read<Vec<u8>> {
    let (parameters, term) = (fields.parameters()?, fields.term(1)?);
    fields.end()?;
    Ok(vec![term.is_resolved_in(&parameters).into()])
}

fn satisfied(fields: &mut Reader) -> Read<Vec<u8>> {
    let (nominal, required, receiver) = (fields.nominal(1)?, fields.nominal(1)?, fields.term(1)?);
    fields.end()?;
    Ok(vec![nominal.satisfies(&required).into(), nominal.satisfies_for(&required, &receiver).into()])
}

fn family(fields: &mut Reader) -> Read<Vec<u8>> {
    let parameters = fields.parameters()?;
    let value = fields.term(1)?;
    let (outer, arguments) = (fields.substitution()?, fields.terms(1)?);
    fields.end()?;
    let inputs = AssociatedTypeParameters { parameters, bounds: GenericBounds };
    Ok(match (AssociatedTypeFamily { inputs, value }).apply(&outer, &arguments) {
        Some(term) => [vec![1], bytes_of(&term)].concat(),
        None => vec![0],
    })
}

/// The term that a walk gives, or refusal 9.
fn walked(walk: impl FnOnce() -> TypeId) -> Read<Vec<u8>> {
    let term = within_children(CHILDREN, walk).ok_or(Refused(9))?;
    Ok(bytes_of(&term))
}

fn with_associated_types(fields: &mut Reader) -> Read<Vec<u8>> {
    let (term, interface, owner) = (fields.term(1)?, fields.nominal(1)?, fields.term(1)?);
    fields.end()?;
    walked(|| term.with_associated_types(&interface, &owner))
}

pub struct Rule {
    interface: NominalType,
    receiver: TypeId,
    member: DefinitionId,
    arguments: Vec<TypeId>,
    value: TypeId,
}

pub fn rule(fields: &mut Reader) -> Read<Rule> {
    Ok(Rule {
        interface: fields.nominal(1)?,
        receiver: fields.term(1)?,
        member: fields.definition()?,
        arguments: fields.terms(1)?,
        value: fields.term(1)?,
    })
}

fn normalise(fields: &mut Reader) -> Read<Vec<u8>> {
    let (rules, term) = (fields.list(rule)?, fields.term(1)?);
    fields.end()?;
    let lookup = |interface: &NominalType, receiver: &TypeId, member: &DefinitionId, arguments: &[TypeId]| {
        let same = |rule: &&Rule| {
            rule.interface == *interface
                && rule.receiver == *receiver
                && rule.member == *member
                && rule.arguments == arguments
        };
        rules.iter().find(same).map(|rule| rule.value.clone())
    };
    walked(|| associated::normalize(&term, &lookup))
}
