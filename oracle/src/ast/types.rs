//! In place of `ast/types.rs`, which is not supplied: the types that the supplied files match on, as
//! plain data. `extend_implicit_lifetime_bounds` reads them; whatever would parse, resolve or lower
//! one is never called by the driver, and panics if it were.

use super::{Ident, Lifetime, LifetimeEnv, NamedLifetime, SpanLocation, Trait};
use crate::Env;
use serde::{Deserialize, Serialize};
use std::fmt;
use std::ops::ControlFlow;

#[derive(Clone, Debug, Default, Hash, PartialEq, Eq, Serialize, Deserialize)]
pub struct Path {
    pub elements: Vec<Ident>,
}

impl fmt::Display for Path {
    fn fmt(&self, f: &mut fmt::Formatter<'_>) -> fmt::Result {
        for (i, e) in self.elements.iter().enumerate() {
            if i > 0 {
                f.write_str("::")?;
            }
            write!(f, "{e}")?;
        }
        Ok(())
    }
}

#[derive(Clone, Debug, Hash, PartialEq, Eq, Serialize, Deserialize)]
pub struct PathType {
    pub path: Path,
    pub lifetimes: Vec<Lifetime>,
}

impl PathType {
    pub fn resolve<'a>(&self, _in_path: &Path, _env: &'a Env) -> &'a super::CustomType {
        unimplemented!("types are not resolved here")
    }
    pub fn resolve_trait(&self, _in_path: &Path, _env: &Env) -> Trait {
        unimplemented!("traits are not resolved here")
    }
}

impl fmt::Display for PathType {
    fn fmt(&self, f: &mut fmt::Formatter<'_>) -> fmt::Result {
        self.path.fmt(f)
    }
}

#[derive(Copy, Clone, Debug, Hash, PartialEq, Eq, Serialize, Deserialize)]
pub enum Mutability {
    Mutable,
    Immutable,
}

impl Mutability {
    pub fn from_syn(t: &Option<syn::Mut>) -> Self {
        match t {
            Some(_) => Mutability::Mutable,
            None => Mutability::Immutable,
        }
    }
    pub fn is_mutable(&self) -> bool {
        matches!(self, Mutability::Mutable)
    }
    pub fn is_immutable(&self) -> bool {
        matches!(self, Mutability::Immutable)
    }
}

#[derive(Copy, Clone, Debug, Hash, PartialEq, Eq, Serialize, Deserialize)]
pub enum PrimitiveType {
    U8,
}

impl fmt::Display for PrimitiveType {
    fn fmt(&self, f: &mut fmt::Formatter<'_>) -> fmt::Result {
        f.write_str("u8")
    }
}

#[derive(Copy, Clone, Debug, Hash, PartialEq, Eq, Serialize, Deserialize)]
pub enum WriteType {
    Str,
    Str16,
    Primitive(PrimitiveType),
}

#[derive(Copy, Clone, Debug, Hash, PartialEq, Eq, Serialize, Deserialize)]
pub enum StringEncoding {
    UnvalidatedUtf8,
    UnvalidatedUtf16,
    Utf8,
}

#[derive(Copy, Clone, Debug, Hash, PartialEq, Eq, Serialize, Deserialize)]
pub enum StdlibOrDiplomat {
    Stdlib,
    Diplomat,
}

#[derive(Copy, Clone, Debug, PartialEq, Eq)]
pub enum LifetimeOrigin {
    Named,
    Reference,
}

#[derive(Clone, Debug, Hash, PartialEq, Eq, Serialize, Deserialize)]
pub enum TypeName {
    Primitive(PrimitiveType),
    Named(PathType),
    Reference(Lifetime, Mutability, Box<TypeName>),
    Box(Box<TypeName>),
    Option(Box<TypeName>, StdlibOrDiplomat),
    Result(Box<TypeName>, Box<TypeName>, StdlibOrDiplomat),
    Write(WriteType),
    StrReference(Option<Lifetime>, StringEncoding, StdlibOrDiplomat),
    StrSlice(StringEncoding, StdlibOrDiplomat),
    PrimitiveSlice(
        Option<(Lifetime, Mutability)>,
        PrimitiveType,
        StdlibOrDiplomat,
    ),
    CustomTypeSlice(
        Option<(Lifetime, Mutability)>,
        Box<TypeName>,
        StdlibOrDiplomat,
    ),
    Unit,
    SelfType(PathType),
    Function(Vec<TypeName>, Box<TypeName>, Mutability),
    ImplTrait(PathType),
    Ordering,
}

impl TypeName {
    pub fn from_syn(_: &syn::Type, _: Option<PathType>, _: &SpanLocation) -> TypeName {
        unimplemented!("types are not parsed here")
    }
    pub fn is_self(&self) -> bool {
        matches!(self, TypeName::SelfType(_))
    }
    pub fn is_ffi_safe(&self) -> bool {
        unimplemented!("types are not lowered here")
    }
    pub fn ffi_safe_version(&self) -> TypeName {
        unimplemented!("types are not lowered here")
    }
    pub fn is_owned_byte_slice(&self) -> bool {
        unimplemented!("types are not lowered here")
    }
    pub fn longer_lifetimes<'env>(&self, _: &'env LifetimeEnv) -> Vec<&'env NamedLifetime> {
        unimplemented!("only `Method::borrowed_params` asks for this")
    }
    pub fn visit_lifetimes<'a, F, B>(&'a self, _: &mut F) -> ControlFlow<B>
    where
        F: FnMut(&'a Lifetime, LifetimeOrigin) -> ControlFlow<B>,
    {
        unimplemented!("only `Method::borrowed_params` asks for this")
    }
}

impl fmt::Display for TypeName {
    fn fmt(&self, f: &mut fmt::Formatter<'_>) -> fmt::Result {
        write!(f, "{self:?}")
    }
}
