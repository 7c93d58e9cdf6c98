//! In place of `hir/methods/borrowing_field.rs`, which is neither supplied nor ordered: a name for
//! methods.rs to mention. Never made.

use crate::hir::{Ident, Method, TypeContext};
use std::marker::PhantomData;

pub struct BorrowingFieldVisitor<'m>(PhantomData<&'m ()>);

impl<'m> BorrowingFieldVisitor<'m> {
    pub(super) fn new(_: &'m Method, _: &'m TypeContext, _: &'m Ident) -> Self {
        unimplemented!("BorrowingFieldVisitor is not supplied")
    }
}
