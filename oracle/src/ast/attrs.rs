//! In place of `ast/attrs.rs`, which is not supplied: no attributes.

use super::SpanLocation;
use serde::{Deserialize, Serialize};
use std::borrow::Cow;

#[derive(Clone, Copy, Debug, PartialEq, Eq)]
pub enum AttrInheritContext {
    Variant,
    Type,
    MethodOrImplFromModule,
}

#[derive(Clone, Debug, Default, Hash, PartialEq, Eq, Serialize, Deserialize)]
pub struct RenameAttr;

impl RenameAttr {
    pub fn apply<'a>(&self, name: Cow<'a, str>) -> Cow<'a, str> {
        name
    }
}

#[derive(Clone, Debug, Default, Hash, PartialEq, Eq, Serialize, Deserialize)]
pub struct Attrs {
    pub abi_rename: RenameAttr,
}

impl Attrs {
    pub fn from_attrs(_: &[syn::Attribute], _: &SpanLocation) -> Self {
        Attrs::default()
    }
    pub fn add_attrs(&mut self, _: &[syn::Attribute], _: &SpanLocation) {}
    pub fn attrs_for_inheritance(&self, _: AttrInheritContext) -> Self {
        self.clone()
    }
}
