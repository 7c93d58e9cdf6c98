//! In place of the crate `syn`: the types and fields that the supplied files of diplomat_core 0.17.0
//! name, as plain data for the oracle to fill in, without a parser (01 leaves parsing out). Debian's
//! own syn is too old for them: it has no `ReceiverKind`. Lists are `Vec`s; `Ident` is proc_macro2's.

pub use proc_macro2::Ident;
use proc_macro2::{Span, TokenStream};
use quote::ToTokens;

#[derive(Clone, Debug)]
pub struct Lifetime {
    pub apostrophe: Span,
    pub ident: Ident,
}

impl Lifetime {
    pub fn new(symbol: &str, span: Span) -> Self {
        let name = symbol
            .strip_prefix('\'')
            .expect("lifetime name must start with apostrophe as in \"'a\"");
        Lifetime {
            apostrophe: span,
            ident: Ident::new(name, span),
        }
    }
}

impl ToTokens for Lifetime {
    fn to_tokens(&self, tokens: &mut TokenStream) {
        use proc_macro2::{Punct, Spacing};
        Punct::new('\'', Spacing::Joint).to_tokens(tokens);
        self.ident.to_tokens(tokens);
    }
}

#[derive(Clone, Debug, Default)]
pub struct Generics {
    pub params: Vec<GenericParam>,
    pub where_clause: Option<WhereClause>,
}

impl Generics {
    pub fn lifetimes(&self) -> impl Iterator<Item = &LifetimeParam> {
        self.params.iter().filter_map(|p| match p {
            GenericParam::Lifetime(l) => Some(l),
            _ => None,
        })
    }
}

#[derive(Clone, Debug)]
pub enum GenericParam {
    Lifetime(LifetimeParam),
    Type(Ident),
    Const(Ident),
}

#[derive(Clone, Debug)]
pub struct LifetimeParam {
    pub lifetime: Lifetime,
    pub bounds: Vec<Lifetime>,
}

#[derive(Clone, Debug, Default)]
pub struct WhereClause {
    pub predicates: Vec<WherePredicate>,
}

#[derive(Clone, Debug)]
#[non_exhaustive]
pub enum WherePredicate {
    Lifetime(PredicateLifetime),
    Type(Ident),
}

#[derive(Clone, Debug)]
pub struct PredicateLifetime {
    pub lifetime: Lifetime,
    pub bounds: Vec<Lifetime>,
}

#[derive(Clone, Debug)]
pub struct Attribute;

#[derive(Clone, Debug)]
pub struct Type;

#[derive(Clone, Debug)]
pub struct Signature {
    pub ident: Ident,
    pub generics: Generics,
    pub inputs: Vec<FnArg>,
    pub output: ReturnType,
}

impl Signature {
    pub fn receiver(&self) -> Option<&Receiver> {
        match self.inputs.first() {
            Some(FnArg::Receiver(r)) => Some(r),
            _ => None,
        }
    }
}

#[derive(Clone, Debug)]
pub enum FnArg {
    Receiver(Receiver),
    Typed(PatType),
}

#[derive(Clone, Debug)]
pub struct And;
#[derive(Clone, Debug)]
pub struct Mut;
#[derive(Clone, Debug)]
pub struct RArrow;
#[derive(Clone, Debug)]
pub struct Eq;

#[derive(Clone, Debug)]
pub struct Receiver {
    pub attrs: Vec<Attribute>,
    pub kind: ReceiverKind,
}

#[derive(Clone, Debug)]
#[non_exhaustive]
pub enum ReceiverKind {
    Reference(And, Option<Lifetime>, Option<Mut>),
    Value,
    Typed(Box<Type>),
}

#[derive(Clone, Debug)]
pub struct PatType {
    pub attrs: Vec<Attribute>,
    pub pat: Box<Pat>,
    pub ty: Box<Type>,
}

#[derive(Clone, Debug)]
#[non_exhaustive]
pub enum Pat {
    Ident(PatIdent),
    Wild,
}

#[derive(Clone, Debug)]
pub struct PatIdent {
    pub ident: Ident,
}

#[derive(Clone, Debug)]
pub enum ReturnType {
    Default,
    Type(RArrow, Box<Type>),
}

#[derive(Clone, Debug)]
pub struct ImplItemFn {
    pub attrs: Vec<Attribute>,
    pub sig: Signature,
}

#[derive(Clone, Debug)]
pub struct ItemFn {
    pub attrs: Vec<Attribute>,
    pub sig: Signature,
}

#[derive(Clone, Debug)]
pub struct ItemStruct {
    pub attrs: Vec<Attribute>,
    pub ident: Ident,
    pub generics: Generics,
}

#[derive(Clone, Debug)]
pub struct ItemTrait {
    pub attrs: Vec<Attribute>,
    pub ident: Ident,
    pub generics: Generics,
}

#[derive(Clone, Debug)]
#[non_exhaustive]
pub enum TraitItem {
    Fn(Signature),
    Const,
}

#[derive(Clone, Debug)]
pub struct ItemEnum {
    pub attrs: Vec<Attribute>,
    pub ident: Ident,
    pub generics: Generics,
    pub variants: Vec<Variant>,
}

#[derive(Clone, Debug)]
pub struct Variant {
    pub attrs: Vec<Attribute>,
    pub ident: Ident,
    pub fields: Fields,
    pub discriminant: Option<(Eq, Expr)>,
}

#[derive(Clone, Debug)]
pub enum Fields {
    Named,
    Unnamed,
    Unit,
}

#[derive(Clone, Debug)]
pub struct Expr;

impl ToTokens for Expr {
    fn to_tokens(&self, _: &mut TokenStream) {}
}

#[derive(Clone, Debug)]
#[non_exhaustive]
pub enum Lit {
    Int(LitInt),
    Bool(bool),
}

#[derive(Clone, Debug)]
pub struct LitInt(String);

impl LitInt {
    pub fn base10_parse<N: std::str::FromStr>(&self) -> Result<N, N::Err> {
        self.0.parse()
    }
}

#[derive(Clone, Debug)]
pub struct File;

#[derive(Debug)]
pub struct Error;

/// Never gives anything: there is no parser.
pub fn parse2<T>(_: TokenStream) -> Result<T, Error> {
    Err(Error)
}

pub mod spanned {
    use proc_macro2::Span;

    pub trait Spanned {
        fn span(&self) -> Span;
    }

    macro_rules! no_span {
        ($($t:ty),*) => {$(
            impl Spanned for $t {
                fn span(&self) -> Span {
                    Span::call_site()
                }
            }
        )*};
    }
    no_span!(
        super::GenericParam,
        super::WherePredicate,
        super::LifetimeParam,
        super::Receiver,
        super::Pat
    );
}
