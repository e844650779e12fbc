//! The place of what build.py takes from Kagari's sources.

use crate::standins::{
    BuiltinType, CollectionAccess,
    CollectionAccess::{Mutable, ReadOnly},
    DefinitionId, GenericBounds, RangeKind, ReferenceAccess,
};
use std::{
    cell::Cell,
    collections::{BTreeMap, HashMap},
    hash::{Hash, Hasher},
    ops::{Deref, DerefMut},
    panic::{self, AssertUnwindSafe},
};

include!(env!("KAGARI_TYPES"));

pub mod associated {
    use super::{DefinitionId, NominalType, TypeId};

    include!(env!("KAGARI_ASSOCIATED"));
}

/// Holds Kagari's map_children, so that the method below can stand before it.
trait Children {
    fn map_children(&self, map: impl FnMut(&TypeId) -> TypeId) -> Self;
}

/// Holds Kagari's substitute_once, in the same way.
trait Substitute {
    fn substitute_once<'a>(&'a self, replacement: impl FnMut(&Self) -> Option<&'a Self>) -> Self;
}

thread_local! {
    /// How many children may still be met.
    static LEFT: Cell<usize> = const { Cell::new(usize::MAX) };
    /// How many nodes may still be met or inserted.
    static NODES_LEFT: Cell<usize> = const { Cell::new(usize::MAX) };
}

/// The reason for leaving a walk.
struct TooMany;

/// The benchmarks are built without the counting.
const COUNTED: bool = option_env!("KAGARI_UNCOUNTED").is_none();

/// One less, or out of the walk.
fn count_down(left: &'static std::thread::LocalKey<Cell<usize>>) {
    if !COUNTED {
        return;
    }
    match left.get().checked_sub(1) {
        Some(less) => left.set(less),
        None => panic::resume_unwind(Box::new(TooMany)),
    }
}

/// Every node of the term counts.
fn count_nodes(term: &TypeId) {
    if !COUNTED {
        return;
    }
    count_down(&NODES_LEFT);
    Children::map_children(term, |child| {
        count_nodes(child);
        TypeId::Unknown
    });
}

impl TypeId {
    /// Kagari's map_children, with the children counted.
    pub fn map_children(&self, mut map: impl FnMut(&TypeId) -> TypeId) -> Self {
        Children::map_children(self, |child| {
            count_down(&LEFT);
            map(child)
        })
    }

    /// Kagari's substitute_once, with the nodes counted.
    pub fn substitute_once<'a>(&'a self, mut replacement: impl FnMut(&Self) -> Option<&'a Self>) -> Self {
        Substitute::substitute_once(self, |term| {
            count_down(&NODES_LEFT);
            let inserted = replacement(term);
            if let Some(inserted) = inserted {
                count_nodes(inserted);
            }
            inserted
        })
    }
}

/// What the work gives, or None if map_children meets more children in it. The work is left at once then: to its end,
/// an order of 8,000 bytes can take more than 100 megabytes.
pub fn within_children<T>(most: usize, work: impl FnOnce() -> T) -> Option<T> {
    bounded(&LEFT, most, work)
}

/// What the work gives, or None if substitute_once meets and inserts more nodes in it.
pub fn within_nodes<T>(most: usize, work: impl FnOnce() -> T) -> Option<T> {
    bounded(&NODES_LEFT, most, work)
}

fn bounded<T>(left: &'static std::thread::LocalKey<Cell<usize>>, most: usize, work: impl FnOnce() -> T) -> Option<T> {
    left.set(most);
    let result = panic::catch_unwind(AssertUnwindSafe(work));
    left.set(usize::MAX);
    match result {
        Ok(result) => Some(result),
        Err(reason) if reason.is::<TooMany>() => None,
        Err(reason) => panic::resume_unwind(reason),
    }
}
