//! In place of `ast/docs.rs`, which is not supplied: no documentation.

use super::SpanLocation;
use serde::{Deserialize, Serialize};

#[derive(Clone, Debug, Default, Hash, PartialEq, Eq, Serialize, Deserialize)]
pub struct Docs;

impl Docs {
    pub fn from_attrs(_: &[syn::Attribute], _: &SpanLocation) -> Self {
        Docs
    }
}
