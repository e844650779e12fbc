//! Stand-ins for what Kagari's listed files use and do not define.

/// The number of a definition: a declaration, a member or an owner.
#[derive(Debug, Clone, Copy, PartialEq, Eq, PartialOrd, Ord, Hash)]
pub struct DefinitionId(pub u32);

/// Builtins by name, the others by code.
#[derive(Debug, Clone, Copy, PartialEq, Eq, Hash)]
pub enum BuiltinType {
    I8,
    I16,
    I32,
    I64,
    U8,
    U16,
    U32,
    U64,
    F32,
    F64,
    Never,
    Other(u8),
}

/// The builtins that have a name, in the order of their codes.
pub const NAMED: [BuiltinType; 11] = [
    BuiltinType::I8,
    BuiltinType::I16,
    BuiltinType::I32,
    BuiltinType::I64,
    BuiltinType::U8,
    BuiltinType::U16,
    BuiltinType::U32,
    BuiltinType::U64,
    BuiltinType::F32,
    BuiltinType::F64,
    BuiltinType::Never,
];

#[derive(Debug, Clone, Copy, PartialEq, Eq, Hash)]
pub enum ReferenceAccess {
    Shared,
    Mutable,
}

#[derive(Debug, Clone, Copy, PartialEq, Eq, Hash)]
pub enum CollectionAccess {
    ReadOnly,
    Mutable,
}

/// One of four kinds, told apart by number.
#[derive(Debug, Clone, Copy, PartialEq, Eq, Hash)]
pub struct RangeKind(pub u8);

/// The bounds of a family, which no order carries.
#[derive(Debug, Clone, PartialEq, Eq)]
pub struct GenericBounds;

/// The number of an expression.
#[derive(Debug, Clone, Copy, PartialEq, Eq, Hash)]
pub struct ExprId(pub u32);

/// The number of a written type.
#[derive(Debug, Clone, Copy, PartialEq, Eq, Hash)]
pub struct TypeRefId(pub u32);

/// Lets so many checks pass; the next one cancels.
pub struct CancellationToken(pub std::cell::Cell<u32>);

pub struct Cancelled;

impl CancellationToken {
    pub fn check(&self) -> Result<(), Cancelled> {
        self.0.set(self.0.get().checked_sub(1).ok_or(Cancelled)?);
        Ok(())
    }
}
