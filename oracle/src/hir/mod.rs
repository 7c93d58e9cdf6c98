//! In place of `hir/mod.rs`, which is not supplied: the supplied modules as they are (build.rs writes
//! where they lie), those of our own, and the names that the supplied files import from here.

include!(concat!(env!("OUT_DIR"), "/hir_supplied.rs"));
include!(concat!(env!("OUT_DIR"), "/hir_methods.rs"));

mod attrs;
mod docs;
pub mod driver;
mod primitives;

/// Constructors for `TypeContext` and the ids. Their fields are private to type_context.rs, which fills
/// them from parsed Rust text, and a sheet is no Rust text. The file is not edited: the one `assert!` in
/// it is answered by this macro, which makes the same assertion and, in the same block, the constructors;
/// an item inside a function sees what its module sees. No behaviour of the file changes, the macro is
/// in scope for this file alone (it is defined after all other modules), and a second `assert!` in it
/// would not compile, since each constructor would be there twice.
macro_rules! assert {
    ($($t:tt)*) => {{
        impl TypeContext {
            pub(in crate::hir) fn oracle_new(structs: Vec<StructDef>) -> Self {
                Self {
                    out_structs: Vec::new(),
                    structs,
                    opaques: Vec::new(),
                    enums: Vec::new(),
                    traits: Vec::new(),
                    functions: Vec::new(),
                }
            }
        }
        impl StructId {
            pub(in crate::hir) fn oracle_new(i: usize) -> Self {
                Self(i)
            }
        }
        impl OpaqueId {
            pub(in crate::hir) fn oracle_new(i: usize) -> Self {
                Self(i)
            }
        }
        impl EnumId {
            pub(in crate::hir) fn oracle_new(i: usize) -> Self {
                Self(i)
            }
        }
        impl TraitId {
            pub(in crate::hir) fn oracle_new(i: usize) -> Self {
                Self(i)
            }
        }
        ::core::assert!($($t)*)
    }};
}
include!(concat!(env!("OUT_DIR"), "/hir_type_context.rs"));

pub use attrs::{
    AttributeContext, AttributeValidator, Attrs, BackendAttrSupport, DefaultArgValue,
    SpecialMethod, SpecialMethodPresence,
};
use defs::TypeUsage;
pub use defs::{
    EnumDef, EnumVariant, OpaqueDef, OutStructDef, OutStructField, ResultUsage, ResultUsageInfo,
    ReturnableStructDef, StructDef, StructField, TraitDef, TypeDef, TypingUseInfo,
};
pub use docs::Docs;
use elision::{
    LifetimeLowerer, ParamLifetimeLowerer, ReturnLifetimeLowerer, SelfParamLifetimeLowerer,
};
use lifetimes::BoundedLifetime;
pub use lifetimes::{Lifetime, LifetimeEnv, Lifetimes, LinkedLifetimes, MaybeStatic};
use lowering::LoweringContext;
pub use lowering::{ErrorAndContext, ErrorStore, LoweringError};
pub use methods::{
    Callback, CallbackInstantiationFunctionality, CallbackParam, Method, NoCallback, Param,
    ParamSelf, ReturnType, SuccessType, TraitParamSelf, WriteType,
};
pub use paths::{
    EnumPath, MaybeOwn, NoTraitPath, NonOptional, OpaquePath, Optional, OutStructPath,
    ReturnableStructPath, StructPath, TraitPath,
};
pub use primitives::PrimitiveType;
pub use strck::ident::rust::{Ident, IdentBuf};
pub use ty_position::{
    Everywhere, InputOnly, InputOrOutput, OpaqueOwner, OutputOnly, StructPathLike, TyPosition,
};
use type_context::LookupId;
pub use type_context::{
    EnumId, LoweringConfig, OpaqueId, OutStructId, StructId, SymbolId, TraitId, TypeContext, TypeId,
};
pub use types::{Borrow, Mutability, OutType, SelfType, Slice, StringEncoding, Type};
