//! In place of `ast/mod.rs`, which is not supplied: the supplied modules as they are, those of our own,
//! and the names that the supplied files import from here.

include!(concat!(env!("OUT_DIR"), "/ast_supplied.rs"));

pub mod attrs;
pub mod docs;
pub mod idents;
pub mod items;
pub mod types;

pub use attrs::{AttrInheritContext, Attrs};
pub use docs::Docs;
pub use enums::Enum;
pub use idents::{Ident, Span, SpanLocation};
pub use items::{
    CustomType, File, Function, ModSymbol, ModuleIncludeInfo, OpaqueType, Struct, Trait,
    TraitMethod,
};
pub use lifetimes::{Lifetime, LifetimeEnv, LifetimeTransitivity, NamedLifetime};
pub use methods::{Method, Param, SelfParam, TraitSelfParam};
pub use types::{
    Mutability, Path, PathType, PrimitiveType, StdlibOrDiplomat, StringEncoding, TypeName,
    WriteType,
};
