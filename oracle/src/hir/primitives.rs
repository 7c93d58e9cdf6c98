//! In place of `hir/primitives.rs`, which is not supplied: two primitives, neither has a lifetime.

use crate::ast;

#[derive(Copy, Clone, Debug, PartialEq, Eq)]
#[non_exhaustive]
pub enum PrimitiveType {
    U8,
    Ordering,
}

impl PrimitiveType {
    pub(super) fn from_ast(_: ast::PrimitiveType) -> Self {
        PrimitiveType::U8
    }
}
