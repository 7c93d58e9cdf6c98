//! In place of `hir::Docs`, which is not supplied: no documentation.

use super::{AttributeValidator, ErrorStore};
use crate::ast;

#[derive(Clone, Debug, Default)]
pub struct Docs;

impl Docs {
    pub fn from_ast(_: &ast::Docs, _: &dyn AttributeValidator, _: &mut ErrorStore) -> Self {
        Docs
    }
}
