//! In place of the files of `ast` for structs, traits, functions and modules, which are not supplied:
//! the fields that lowering.rs and type_context.rs read, so that they compile. None is ever made.

use super::{
    Attrs, Docs, Enum, Ident, LifetimeEnv, Method, Mutability, Param, SpanLocation, TraitSelfParam,
    TypeName,
};
use crate::Env;
use serde::Serialize;
use std::marker::PhantomData;

#[derive(Clone, Debug, Hash, PartialEq, Eq, Serialize)]
pub struct Struct {
    pub name: Ident,
    pub docs: Docs,
    pub lifetimes: LifetimeEnv,
    pub fields: Vec<(Ident, TypeName, Docs, Attrs)>,
    pub methods: Vec<Method>,
    pub output_only: bool,
    pub attrs: Attrs,
}

#[derive(Clone, Debug, Hash, PartialEq, Eq, Serialize)]
pub struct OpaqueType {
    pub name: Ident,
    pub docs: Docs,
    pub lifetimes: LifetimeEnv,
    pub methods: Vec<Method>,
    pub mutability: Mutability,
    pub attrs: Attrs,
    pub dtor_abi_name: Ident,
}

#[derive(Clone, Debug, Hash, PartialEq, Eq, Serialize)]
pub struct Trait {
    pub name: Ident,
    pub lifetimes: LifetimeEnv,
    pub methods: Vec<TraitMethod>,
    pub docs: Docs,
    pub attrs: Attrs,
    pub is_sync: bool,
    pub is_send: bool,
}

#[derive(Clone, Debug, Hash, PartialEq, Eq, Serialize)]
pub struct TraitMethod {
    pub name: Ident,
    pub self_param: Option<TraitSelfParam>,
    pub params: Vec<Param>,
    pub output_type: Option<TypeName>,
    pub lifetimes: LifetimeEnv,
    pub attrs: Attrs,
    pub docs: Docs,
}

#[derive(Clone, Debug, Hash, PartialEq, Eq, Serialize)]
pub struct Function {
    pub name: Ident,
    pub abi_name: Ident,
    pub params: Vec<Param>,
    pub output_type: Option<TypeName>,
    pub lifetimes: LifetimeEnv,
    pub attrs: Attrs,
    pub docs: Docs,
}

#[derive(Clone, Debug, Hash, PartialEq, Eq, Serialize)]
pub enum CustomType {
    Struct(Struct),
    Opaque(OpaqueType),
    Enum(Enum),
}

#[derive(Clone, Debug)]
#[non_exhaustive]
pub enum ModSymbol {
    CustomType(CustomType),
    Trait(Trait),
    Function(Function),
    SubModule(Ident),
}

pub struct ModuleIncludeInfo<'a>(PhantomData<&'a ()>);

pub struct File;

impl File {
    pub fn from_syn(_: &syn::File, _: Option<ModuleIncludeInfo<'_>>, _: &SpanLocation) -> File {
        unimplemented!("files are not parsed here")
    }
    pub fn all_types(&self) -> Env {
        unimplemented!("files are not parsed here")
    }
}
