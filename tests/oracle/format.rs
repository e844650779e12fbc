//! Document 01's byte form: reading with refusals 1 to 7, and writing.

use crate::kagari::{GenericParameterType, NominalType, TypeId, TypeSubstitution};
use crate::standins::{BuiltinType, CollectionAccess, DefinitionId, NAMED, RangeKind, ReferenceAccess};
use std::collections::BTreeMap;

const LEVELS: usize = 200;
const NODES: usize = 2048;
const CODES: u8 = 32;

/// The first fault met.
pub struct Refused(pub u8);

pub type Read<T> = Result<T, Refused>;

pub struct Reader<'a> {
    bytes: &'a [u8],
    at: usize,
    /// Nodes kept before and read since.
    nodes: usize,
    /// Inference ids from here on are refused.
    issued: usize,
}

/// Bytes, numbers and the end.
impl<'a> Reader<'a> {
    pub fn new(bytes: &'a [u8]) -> Self {
        Self { bytes, at: 0, nodes: 0, issued: usize::MAX }
    }

    pub fn keeping(self, nodes: usize) -> Self {
        Self { nodes, ..self }
    }

    pub fn with_issued(self, issued: usize) -> Self {
        Self { issued, ..self }
    }

    pub fn nodes(&self) -> usize {
        self.nodes
    }

    pub fn is_used_up(&self) -> bool {
        self.at == self.bytes.len()
    }

    /// What was not read yet.
    pub fn rest(&self) -> &'a [u8] {
        &self.bytes[self.at..]
    }

    /// So many bytes, if they are there.
    pub fn part(&mut self, length: u32) -> Option<&'a [u8]> {
        let part = self.rest().get(..length as usize)?;
        self.at += part.len();
        Some(part)
    }

    pub fn byte(&mut self) -> Read<u8> {
        let byte = *self.bytes.get(self.at).ok_or(Refused(1))?;
        self.at += 1;
        Ok(byte)
    }

    fn listed(&mut self, how_many: u8) -> Read<u8> {
        let byte = self.byte()?;
        if byte < how_many { Ok(byte) } else { Err(Refused(2)) }
    }

    pub fn number(&mut self) -> Read<u32> {
        let mut value = 0;
        for group in 0..5 {
            let byte = self.byte()?;
            let too_large = group == 4 && byte > 0x0f;
            let not_shortest = group > 0 && byte == 0;
            if too_large || not_shortest {
                return Err(Refused(3));
            }
            value |= u32::from(byte & 0x7f) << (7 * group);
            if byte & 0x80 == 0 {
                break;
            }
        }
        Ok(value)
    }

    pub fn definition(&mut self) -> Read<DefinitionId> {
        self.number().map(DefinitionId)
    }

    /// After the last field: leftover bytes, then the number of nodes.
    pub fn end(&self) -> Read<()> {
        if !self.is_used_up() {
            return Err(Refused(1));
        }
        if self.nodes > NODES { Err(Refused(7)) } else { Ok(()) }
    }
}

/// Terms and nominals.
impl Reader<'_> {
    pub fn term(&mut self, level: usize) -> Read<TypeId> {
        if level > LEVELS {
            return Err(Refused(4));
        }
        self.nodes += 1;
        let below = level + 1;
        Ok(match self.byte()? {
            0 => {
                let access = self.reference_access()?;
                TypeId::Reference { access, target: self.boxed(below)? }
            }
            1 => TypeId::Inference(self.inference()?),
            2 => TypeId::Unknown,
            3 => TypeId::Error,
            4 => TypeId::Builtin(self.code()?),
            5 => TypeId::Tuple(self.terms(below)?),
            6 => TypeId::Function { params: self.terms(below)?, result: self.boxed(below)? },
            7 => TypeId::Iter(self.boxed(below)?),
            8 => {
                let kind = RangeKind(self.listed(4)?);
                TypeId::Range(self.boxed(below)?, kind)
            }
            9 => TypeId::Array(self.boxed(below)?),
            10 => {
                let access = self.collection_access()?;
                TypeId::Map { access, key: self.boxed(below)?, value: self.boxed(below)? }
            }
            11 => {
                let access = self.collection_access()?;
                TypeId::Set(self.boxed(below)?, access)
            }
            tag => return self.named(tag, below),
        })
    }

    /// A term with tag 12 or above, after the tag.
    fn named(&mut self, tag: u8, below: usize) -> Read<TypeId> {
        Ok(match tag {
            12 => TypeId::NativeObject(self.nominal(below)?),
            13 => TypeId::Struct(self.nominal(below)?),
            14 => TypeId::Enum(self.nominal(below)?),
            15 => TypeId::Trait(self.nominal(below)?),
            16 => TypeId::Host(self.definition()?),
            17 => TypeId::Generic(self.parameter()?),
            18 => TypeId::Projection {
                receiver: self.boxed(below)?,
                interface: Box::new(self.nominal(below)?),
                member: self.definition()?,
                arguments: self.terms(below)?,
            },
            19 => TypeId::SelfType(self.definition()?),
            _ => return Err(Refused(2)),
        })
    }

    fn inference(&mut self) -> Read<u32> {
        let id = self.number()?;
        if (id as usize) < self.issued { Ok(id) } else { Err(Refused(6)) }
    }

    fn boxed(&mut self, level: usize) -> Read<Box<TypeId>> {
        self.term(level).map(Box::new)
    }

    pub fn terms(&mut self, level: usize) -> Read<Vec<TypeId>> {
        self.list(|reader| reader.term(level))
    }

    /// A nominal whose terms stand at that level.
    pub fn nominal(&mut self, level: usize) -> Read<NominalType> {
        Ok(NominalType {
            declaration: self.definition()?,
            arguments: self.terms(level)?,
            associated_types: self.members(level)?,
        })
    }

    fn members(&mut self, level: usize) -> Read<BTreeMap<DefinitionId, TypeId>> {
        let mut members = BTreeMap::new();
        let mut last = None;
        for _ in 0..self.number()? {
            let member = self.definition()?;
            if last >= Some(member) {
                return Err(Refused(5));
            }
            last = Some(member);
            members.insert(member, self.term(level)?);
        }
        Ok(members)
    }

    fn reference_access(&mut self) -> Read<ReferenceAccess> {
        Ok([ReferenceAccess::Shared, ReferenceAccess::Mutable][usize::from(self.listed(2)?)])
    }

    fn collection_access(&mut self) -> Read<CollectionAccess> {
        Ok([CollectionAccess::ReadOnly, CollectionAccess::Mutable][usize::from(self.listed(2)?)])
    }
}

/// Lists of an order.
impl Reader<'_> {
    /// A count and so many of what `one` reads. The count is not trusted: memory grows with what is read.
    pub fn list<T>(&mut self, mut one: impl FnMut(&mut Self) -> Read<T>) -> Read<Vec<T>> {
        let mut found = Vec::new();
        for _ in 0..self.number()? {
            found.push(one(self)?);
        }
        Ok(found)
    }

    /// Owner and position. The name, which the byte form leaves out, is empty.
    pub fn parameter(&mut self) -> Read<GenericParameterType> {
        Ok(GenericParameterType { owner: self.definition()?, position: self.number()? as usize, name: String::new() })
    }

    pub fn parameters(&mut self) -> Read<Vec<GenericParameterType>> {
        self.list(Self::parameter)
    }

    pub fn substitution(&mut self) -> Read<TypeSubstitution> {
        let entries = self.list(|reader| Ok((reader.parameter()?, reader.term(1)?)))?;
        let receivers = self.list(|reader| Ok((reader.definition()?, reader.term(1)?)))?;
        let mut substitution: TypeSubstitution = entries.into_iter().collect();
        for (owner, term) in receivers {
            substitution.insert_receiver(owner, term);
        }
        Ok(substitution)
    }
}

/// A builtin by its code alone.
impl Reader<'_> {
    pub fn code(&mut self) -> Read<BuiltinType> {
        self.listed(CODES).map(builtin)
    }
}

fn builtin(code: u8) -> BuiltinType {
    NAMED.get(usize::from(code)).copied().unwrap_or(BuiltinType::Other(code))
}

fn builtin_code(builtin: BuiltinType) -> u8 {
    if let BuiltinType::Other(code) = builtin {
        return code;
    }
    NAMED.iter().position(|named| *named == builtin).expect("a builtin has a code") as u8
}

// Writing

pub fn put_number(out: &mut Vec<u8>, mut value: usize) {
    while value > 0x7f {
        out.push(0x80 | (value & 0x7f) as u8);
        value >>= 7;
    }
    out.push(value as u8);
}

fn put_definition(out: &mut Vec<u8>, id: &DefinitionId) {
    put_number(out, id.0 as usize);
}

fn put_terms(out: &mut Vec<u8>, terms: &[TypeId]) {
    put_number(out, terms.len());
    terms.iter().for_each(|term| put_term(out, term));
}

fn put_nominal(out: &mut Vec<u8>, nominal: &NominalType) {
    put_definition(out, &nominal.declaration);
    put_terms(out, &nominal.arguments);
    put_number(out, nominal.associated_types.len());
    for (member, term) in &nominal.associated_types {
        put_definition(out, member);
        put_term(out, term);
    }
}

/// A tag, a byte and a term.
fn put_marked(out: &mut Vec<u8>, tag: u8, mark: u8, term: &TypeId) {
    out.extend([tag, mark]);
    put_term(out, term);
}

fn put_tagged_nominal(out: &mut Vec<u8>, tag: u8, nominal: &NominalType) {
    out.push(tag);
    put_nominal(out, nominal);
}

fn put_tagged_definition(out: &mut Vec<u8>, tag: u8, id: &DefinitionId) {
    out.push(tag);
    put_definition(out, id);
}

pub fn put_term(out: &mut Vec<u8>, term: &TypeId) {
    match term {
        TypeId::Reference { target, access } => put_marked(out, 0, *access as u8, target),
        TypeId::Inference(id) => {
            out.push(1);
            put_number(out, *id as usize);
        }
        TypeId::Unknown => out.push(2),
        TypeId::Error => out.push(3),
        TypeId::Builtin(builtin) => out.extend([4, builtin_code(*builtin)]),
        TypeId::Tuple(terms) => {
            out.push(5);
            put_terms(out, terms);
        }
        TypeId::Function { params, result } => {
            out.push(6);
            put_terms(out, params);
            put_term(out, result);
        }
        TypeId::Iter(term) => {
            out.push(7);
            put_term(out, term);
        }
        TypeId::Range(term, kind) => put_marked(out, 8, kind.0, term),
        TypeId::Array(term) => {
            out.push(9);
            put_term(out, term);
        }
        TypeId::Map { key, value, access } => {
            put_marked(out, 10, *access as u8, key);
            put_term(out, value);
        }
        TypeId::Set(term, access) => put_marked(out, 11, *access as u8, term),
        _ => put_named(out, term),
    }
}

fn put_named(out: &mut Vec<u8>, term: &TypeId) {
    match term {
        TypeId::NativeObject(nominal) => put_tagged_nominal(out, 12, nominal),
        TypeId::Struct(nominal) => put_tagged_nominal(out, 13, nominal),
        TypeId::Enum(nominal) => put_tagged_nominal(out, 14, nominal),
        TypeId::Trait(nominal) => put_tagged_nominal(out, 15, nominal),
        TypeId::Host(id) => put_tagged_definition(out, 16, id),
        TypeId::Generic(parameter) => {
            put_tagged_definition(out, 17, &parameter.owner);
            put_number(out, parameter.position);
        }
        TypeId::Projection { arguments, receiver, interface, member } => {
            out.push(18);
            put_term(out, receiver);
            put_nominal(out, interface);
            put_definition(out, member);
            put_terms(out, arguments);
        }
        TypeId::SelfType(id) => put_tagged_definition(out, 19, id),
        _ => unreachable!("put_term writes the other kinds"),
    }
}
