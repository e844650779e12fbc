//! The place of Kagari's Solver.

use crate::kagari::TypeId;
use crate::standins::{BuiltinType, CancellationToken, Cancelled, ExprId, TypeRefId};
use std::collections::{HashMap, HashSet};

include!(env!("KAGARI_SOLVER"));

impl Solver {
    pub fn issued(&self) -> usize {
        self.bindings.len()
    }
}
