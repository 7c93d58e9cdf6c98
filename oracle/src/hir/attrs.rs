//! In place of `hir/attrs.rs`, which is not supplied: attributes that say nothing, and a backend that
//! supports everything. No answer depends on them.

use super::{EnumVariant, ErrorStore, Method, TraitDef, TypeDef, TypeId};
use crate::ast;

#[derive(Clone, Debug)]
pub struct DefaultArgValue;

#[derive(Clone, Debug, PartialEq, Eq)]
#[non_exhaustive]
pub enum SpecialMethod {
    Constructor,
    Comparison(bool),
}

#[derive(Clone, Debug, Default)]
pub struct SpecialMethodPresence;

#[derive(Clone, Debug, Default)]
pub struct Attrs {
    pub disable: bool,
    pub special_method: Option<SpecialMethod>,
    pub default_value: Option<DefaultArgValue>,
    pub abi_compatible: bool,
    pub mut_struct_ref: bool,
    pub tuple: bool,
    pub ffi_error: bool,
}

impl Attrs {
    pub fn from_ast(
        _: &ast::Attrs,
        _: &(impl AttributeValidator + ?Sized),
        parent: Attrs,
        _: &mut ErrorStore,
    ) -> Self {
        parent
    }
    pub fn for_inheritance(&self, _: ast::attrs::AttrInheritContext) -> Attrs {
        self.clone()
    }
}

pub enum AttributeContext<'a, 'b> {
    Type(TypeDef<'a>),
    Trait(&'a TraitDef),
    EnumVariant(&'a EnumVariant),
    Function(&'a Method),
    Method(&'a Method, Option<TypeId>, &'b mut SpecialMethodPresence),
    Field,
    Param,
    SelfParam,
}

pub struct BackendAttrSupport {
    pub callback_returns_must_be_fallible: bool,
    pub callbacks: bool,
    pub free_functions: bool,
    pub generic_writeables: bool,
    pub method_overloading: bool,
    pub mut_struct_refs: bool,
    pub mutable_slices: bool,
    pub opaque_slices: bool,
    pub option: bool,
    pub owned_byte_slice_returns: bool,
    pub owned_slices: bool,
    pub partial_comparators: bool,
    pub static_slices: bool,
    pub struct_refs: bool,
    pub traits: bool,
    pub traits_are_send: bool,
    pub traits_are_sync: bool,
    pub utf16_writeables: bool,
}

pub trait AttributeValidator {
    fn attrs_supported(&self) -> BackendAttrSupport;

    fn attr_from_ast(&self, ast: &ast::Attrs, parent: Attrs, errors: &mut ErrorStore) -> Attrs {
        Attrs::from_ast(ast, self, parent, errors)
    }

    fn validate(&self, _: &Attrs, _: AttributeContext, _: &mut ErrorStore) {}
}
