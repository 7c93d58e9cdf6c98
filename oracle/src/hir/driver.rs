//! The driver: words of a sheet to the supplied code's inputs, its calls, and its answers to text. What
//! the supplied code decides is decided there and nowhere here.
//!
//! It is a child of `hir` because several of the calls and constructors it needs are `pub(super)` there.
//! Refusals are not its business: a sheet that 01 refuses panics, or is answered all the same.

use super::elision::{
    LifetimeLowerer, ParamLifetimeLowerer, ReturnLifetimeLowerer, SelfParamLifetimeLowerer,
};
use super::lifetimes::{BoundedLifetime, Lifetime, LifetimeEnv, Lifetimes, MaybeStatic};
use super::methods::borrowing_param::{
    BorrowedLifetimeInfo, BorrowingParamVisitor, LifetimeEdgeKind, ParamBorrowInfo,
    StructBorrowInfo,
};
use super::ty_position::Sealed;
use super::*;
use crate::ast;
use crate::ast::idents::FromWithSpan;
use crate::Env;
use smallvec::SmallVec;
use std::collections::BTreeMap;
use std::hash::{Hash, Hasher};

/// The names of the records: the first line of every sheet.
pub const RECORDS: [&str; 10] = [
    "names", "bounds", "types", "self", "steps", "returns", "structs", "params", "output", "force",
];

// ---------------------------------------------------------------------------------------------
// Reading a sheet

/// A sheet's ten records, as words.
pub struct Sheet {
    records: [Vec<u32>; 10],
}

impl Sheet {
    pub fn read(text: &[u8]) -> Sheet {
        assert!(text.last() == Some(&b'\n'), "sheet: no LF at the end");
        let mut lines = text[..text.len() - 1].split(|&b| b == b'\n');
        let first = lines.next().unwrap();
        assert!(
            first
                .split(|&b| b == b' ')
                .eq(RECORDS.iter().map(|r| r.as_bytes())),
            "sheet: not the line of names"
        );
        let mut records: [Vec<u32>; 10] = Default::default();
        for record in &mut records {
            let line = lines.next().expect("sheet: too few lines");
            if line.is_empty() {
                continue;
            }
            for word in line.split(|&b| b == b' ') {
                assert!(
                    !word.is_empty() && word.len() <= 5 && (word[0] != b'0' || word.len() == 1),
                    "sheet: not a word"
                );
                let mut v = 0u32;
                for &b in word {
                    assert!(b.is_ascii_digit(), "sheet: not a word");
                    v = 10 * v + u32::from(b - b'0');
                }
                assert!(v <= 65535, "sheet: word above 65535");
                record.push(v);
            }
        }
        assert!(lines.next().is_none(), "sheet: too many lines");
        Sheet { records }
    }

    fn record(&self, i: usize) -> Words<'_> {
        Words(&self.records[i])
    }
}

/// What is left of a record.
#[derive(Copy, Clone)]
struct Words<'a>(&'a [u32]);

impl<'a> Words<'a> {
    fn more(&self) -> bool {
        !self.0.is_empty()
    }
    fn word(&mut self) -> u32 {
        let (&w, rest) = self.0.split_first().expect("sheet: record too short");
        self.0 = rest;
        w
    }
    fn count(&mut self) -> usize {
        self.word() as usize
    }
    fn take(&mut self, n: usize) -> &'a [u32] {
        assert!(n <= self.0.len(), "sheet: record too short");
        let (a, b) = self.0.split_at(n);
        self.0 = b;
        a
    }
}

// ---------------------------------------------------------------------------------------------
// Forms that a sheet does not tell apart

/// Where one code of the sheet stands for several forms of the Rust (a slice of text, of numbers, ..),
/// this picks one: variant 0 always the first, any other variant by a generator seeded with it. An answer
/// that changed with the variant would show that 01's code lumps together what the Rust tells apart.
#[derive(Clone)]
pub struct Forms {
    variant: u64,
    state: u64,
}

impl Forms {
    pub fn new(variant: u64) -> Self {
        Forms {
            variant,
            state: variant,
        }
    }
    fn pick(&mut self, n: u64) -> u64 {
        if self.variant == 0 {
            return 0;
        }
        // splitmix64
        self.state = self.state.wrapping_add(0x9e37_79b9_7f4a_7c15);
        let mut z = self.state;
        z = (z ^ (z >> 30)).wrapping_mul(0xbf58_476d_1ce4_e5b9);
        z = (z ^ (z >> 27)).wrapping_mul(0x94d0_49bb_1331_11eb);
        (z ^ (z >> 31)) % n
    }
}

// ---------------------------------------------------------------------------------------------
// Numbers of lifetimes

/// The number in a `Lifetime`. Its field is private and there is no getter, but its derived `Hash` writes
/// exactly that `usize` to whatever hasher it is given.
pub fn number(lt: Lifetime) -> usize {
    struct Catch(usize);
    impl Hasher for Catch {
        fn write(&mut self, _: &[u8]) {
            unreachable!("a Lifetime is one usize")
        }
        fn write_usize(&mut self, i: usize) {
            self.0 = i;
        }
        fn finish(&self) -> u64 {
            self.0 as u64
        }
    }
    let mut catch = Catch(0);
    lt.hash(&mut catch);
    catch.0
}

/// 0 for `'static`, else the number and one
fn word_of(lt: MaybeStatic<Lifetime>) -> usize {
    match lt {
        MaybeStatic::Static => 0,
        MaybeStatic::NonStatic(lt) => number(lt) + 1,
    }
}

/// and back
fn lowered(word: u32) -> MaybeStatic<Lifetime> {
    match word {
        0 => MaybeStatic::Static,
        k => MaybeStatic::NonStatic(Lifetime::new(k as usize - 1)),
    }
}

fn lowered_list(words: &[u32]) -> Lifetimes {
    let mut lts = Lifetimes::from_fn(&[], |_| unreachable!());
    for &w in words {
        lts.append_lifetime(lowered(w));
    }
    lts
}

// ---------------------------------------------------------------------------------------------
// Names, bounds and types: the AST

const NOWHERE: &ast::SpanLocation = &ast::SpanLocation::None;

/// A declared word as text: the name 7 is `'n7`.
fn syn_lifetime(word: u32) -> syn::Lifetime {
    let here = proc_macro2::Span::call_site();
    match word {
        0 => syn::Lifetime::new("'static", here),
        1 => syn::Lifetime::new("'_", here),
        _ => syn::Lifetime::new(&format!("'n{word}"), here),
    }
}

/// A declared word as the AST's lifetime.
fn declared(word: u32) -> ast::Lifetime {
    match word {
        0 => ast::Lifetime::Static,
        1 => ast::Lifetime::Anonymous,
        _ => ast::Lifetime::spanned_from(&syn_lifetime(word), NOWHERE),
    }
}

fn declared_list(words: &[u32]) -> Vec<ast::Lifetime> {
    words.iter().map(|&w| declared(w)).collect()
}

/// Names as generics and pairs as `where` predicates, one for each, so that they are pushed in order.
fn generics(names: &[u32], pairs: &[u32]) -> syn::Generics {
    assert!(pairs.len() % 2 == 0, "sheet: half a bound");
    syn::Generics {
        params: names
            .iter()
            .map(|&n| {
                assert!(n >= 2, "sheet: name 0 or 1");
                syn::GenericParam::Lifetime(syn::LifetimeParam {
                    lifetime: syn_lifetime(n),
                    bounds: Vec::new(),
                })
            })
            .collect(),
        where_clause: (!pairs.is_empty()).then(|| syn::WhereClause {
            predicates: pairs
                .chunks(2)
                .map(|p| {
                    syn::WherePredicate::Lifetime(syn::PredicateLifetime {
                        lifetime: syn_lifetime(p[0]),
                        bounds: vec![syn_lifetime(p[1])],
                    })
                })
                .collect(),
        }),
    }
}

fn ident(s: &str) -> ast::Ident {
    ast::Ident::new(s.to_owned())
}

fn path_type(words: &[u32]) -> ast::PathType {
    ast::PathType {
        path: ast::Path::default(),
        lifetimes: declared_list(words),
    }
}

/// One type of the record `types`. Code 0 takes forms whose contents name the declared lifetimes
/// (`names`): `extend_implicit_lifetime_bounds` must not look into them.
fn ast_type(w: &mut Words, names: &[u32], forms: &mut Forms) -> ast::TypeName {
    use ast::{Mutability, StdlibOrDiplomat, TypeName};
    let std = if forms.pick(2) == 0 {
        StdlibOrDiplomat::Stdlib
    } else {
        StdlibOrDiplomat::Diplomat
    };
    match w.word() {
        0 => {
            let a = declared(names.first().copied().unwrap_or(0));
            let m = Mutability::Immutable;
            match forms.pick(9) {
                0 => TypeName::Unit,
                1 => TypeName::Primitive(ast::PrimitiveType::U8),
                2 => TypeName::Box(Box::new(TypeName::Reference(
                    a,
                    m,
                    Box::new(TypeName::Named(path_type(names))),
                ))),
                3 => TypeName::SelfType(path_type(names)),
                4 => TypeName::StrReference(Some(a), ast::StringEncoding::Utf8, std),
                5 => TypeName::PrimitiveSlice(Some((a, m)), ast::PrimitiveType::U8, std),
                6 => TypeName::CustomTypeSlice(
                    Some((a, m)),
                    Box::new(TypeName::Named(path_type(names))),
                    std,
                ),
                7 => TypeName::Box(Box::new(TypeName::Named(path_type(names)))),
                _ => TypeName::ImplTrait(path_type(names)),
            }
        }
        1 => {
            let n = w.count();
            TypeName::Named(path_type(w.take(n)))
        }
        2 => {
            let lt = declared(w.word());
            let m = if forms.pick(2) == 0 {
                Mutability::Immutable
            } else {
                Mutability::Mutable
            };
            TypeName::Reference(lt, m, Box::new(ast_type(w, names, forms)))
        }
        3 => TypeName::Option(Box::new(ast_type(w, names, forms)), std),
        4 => {
            let ok = ast_type(w, names, forms);
            let err = ast_type(w, names, forms);
            TypeName::Result(Box::new(ok), Box::new(err), std)
        }
        c => panic!("sheet: unknown type code {c}"),
    }
}

/// The arguments of `ast::LifetimeEnv::from_method_item`.
struct AstInputs {
    method: syn::ImplItemFn,
    impl_generics: Option<syn::Generics>,
    self_param: Option<ast::SelfParam>,
    params: Vec<ast::Param>,
    return_type: Option<ast::TypeName>,
}

impl AstInputs {
    fn new(sheet: &Sheet, forms: &mut Forms) -> Self {
        let mut w = sheet.record(0);
        let impl_count = w.count();
        let impl_names = w.take(impl_count);
        let method_names = w.0;
        let all_names = &sheet.records[0][1..];

        let mut w = sheet.record(1);
        let impl_count = w.count();
        let impl_bounds = w.take(2 * impl_count);
        let method_bounds = w.0;

        let mut w = sheet.record(2);
        let mut types = Vec::new();
        while w.more() {
            types.push(ast_type(&mut w, all_names, forms));
        }

        // Self, parameters and return type are looked through in this order and alike, so all may
        // go in as parameters (variant 0), or the first as self and the last as return type.
        let mut self_param = None;
        if forms.pick(2) == 1 && !types.is_empty() {
            let parts = match &types[0] {
                ast::TypeName::Named(p) => Some((None, p.clone())),
                ast::TypeName::Reference(lt, m, t) => match &**t {
                    ast::TypeName::Named(p) => Some((Some((lt.clone(), *m)), p.clone())),
                    _ => None,
                },
                _ => None,
            };
            if let Some((reference, path_type)) = parts {
                types.remove(0);
                self_param = Some(ast::SelfParam {
                    reference,
                    path_type,
                    attrs: ast::Attrs::default(),
                });
            }
        }
        let mut return_type = None;
        if forms.pick(2) == 1 {
            return_type = types.pop();
        }
        AstInputs {
            method: syn::ImplItemFn {
                attrs: Vec::new(),
                sig: syn::Signature {
                    ident: syn::Ident::new("m", proc_macro2::Span::call_site()),
                    generics: generics(method_names, method_bounds),
                    inputs: Vec::new(),
                    output: syn::ReturnType::Default,
                },
            },
            // none at all, or empty ones: both forms of "no impl names"
            impl_generics: (impl_names.len() + impl_bounds.len() > 0 || forms.pick(2) == 1)
                .then(|| generics(impl_names, impl_bounds)),
            self_param,
            params: types
                .into_iter()
                .map(|ty| ast::Param {
                    name: ident("p"),
                    ty,
                    attrs: ast::Attrs::default(),
                })
                .collect(),
            return_type,
        }
    }

    fn env(&self) -> ast::LifetimeEnv {
        ast::LifetimeEnv::from_method_item(
            &self.method,
            self.impl_generics.as_ref(),
            self.self_param.as_ref(),
            &self.params,
            self.return_type.as_ref(),
            NOWHERE,
        )
    }
}

// ---------------------------------------------------------------------------------------------
// What no sheet changes

struct Validator;

impl AttributeValidator for Validator {
    fn attrs_supported(&self) -> BackendAttrSupport {
        BackendAttrSupport {
            callback_returns_must_be_fallible: false,
            callbacks: true,
            free_functions: true,
            generic_writeables: true,
            method_overloading: true,
            mut_struct_refs: true,
            mutable_slices: true,
            opaque_slices: true,
            option: true,
            owned_byte_slice_returns: true,
            owned_slices: true,
            partial_comparators: true,
            static_slices: true,
            struct_refs: true,
            traits: true,
            traits_are_send: true,
            traits_are_sync: true,
            utf16_writeables: true,
        }
    }
}

/// The `LoweringContext` that the lowerers ask for, got by lowering an empty environment, and the
/// generics of a type with 0, 1, .. 16 lifetimes, for kind 1 of the steps.
pub struct Engine {
    ctx: LoweringContext<'static>,
    generics: Vec<ast::LifetimeEnv>,
    /// an environment made by hand (`hand_env`), if one is asked for
    pub hand: Option<Vec<usize>>,
}

impl Engine {
    pub fn new() -> Self {
        let env: &'static Env = Box::leak(Box::default());
        let Ok((ctx, _)) =
            TypeContext::from_ast_without_validation(env, LoweringConfig::default(), Validator)
        else {
            panic!("the empty environment is lowered")
        };
        let generics = (0..=16)
            .map(|g| {
                let names: Vec<u32> = (0..g).map(|i| i + 2).collect();
                ast::LifetimeEnv::from_struct_item(
                    &syn::ItemStruct {
                        attrs: Vec::new(),
                        ident: syn::Ident::new("S", proc_macro2::Span::call_site()),
                        generics: self::generics(&names, &[]),
                    },
                    &[],
                    NOWHERE,
                )
            })
            .collect();
        Engine {
            ctx,
            generics,
            hand: None,
        }
    }

    fn ident(&mut self, s: &str) -> IdentBuf {
        self.ctx.lower_ident(&ident(s), "oracle").unwrap()
    }
}

// ---------------------------------------------------------------------------------------------
// Elision

/// A step of elision; g is how many generics the type has.
enum Step {
    Lifetime(ast::Lifetime),
    Generics {
        list: Vec<ast::Lifetime>,
        g: usize,
        is_self: bool,
    },
}

fn steps(mut w: Words, forms: &mut Forms) -> Vec<Step> {
    let mut steps = Vec::new();
    while w.more() {
        steps.push(match w.word() {
            0 => Step::Lifetime(declared(w.word())),
            1 => {
                let g = w.count();
                let n = w.count();
                Step::Generics {
                    list: declared_list(w.take(n)),
                    g,
                    is_self: false,
                }
            }
            2 => {
                let n = w.count();
                Step::Generics {
                    list: declared_list(w.take(n)),
                    g: forms.pick(17) as usize, // not looked at for `Self`
                    is_self: true,
                }
            }
            c => panic!("sheet: unknown step {c}"),
        });
    }
    steps
}

/// One step by a lowerer; its words go behind those of the steps before.
fn take_step(
    step: &Step,
    lowerer: &mut impl LifetimeLowerer,
    generics: &[ast::LifetimeEnv],
    out: &mut Vec<usize>,
) {
    match step {
        Step::Lifetime(lt) => out.push(word_of(lowerer.lower_lifetime(lt))),
        Step::Generics { list, g, is_self } => {
            let lts = lowerer.lower_generics(list, &generics[*g], *is_self);
            out.extend(lts.lifetimes().map(word_of));
        }
    }
}

// ---------------------------------------------------------------------------------------------
// Structs, parameters and output: the HIR

/// `InputOnly`, but for opaques that may be owned. diplomat has no owned opaque among a method's inputs;
/// 01 has, and `visit_param` takes a type of any position whose struct paths are plain.
#[derive(Debug, Copy, Clone)]
pub struct SheetInput;

impl Sealed for SheetInput {}

impl TyPosition for SheetInput {
    const IN_OUT_STATUS: InputOrOutput = InputOrOutput::Input;
    type OpaqueOwnership = MaybeOwn;
    type StructId = StructId;
    type StructPath = StructPath;
    type CallbackInstantiation = Callback;
    type TraitPath = TraitPath;

    fn wrap_struct_def<'tcx>(_: &'tcx StructDef<Self>) -> TypeDef<'tcx> {
        panic!("no such struct definitions")
    }
    fn build_callback(cb: Callback) -> Callback {
        cb
    }
    fn build_trait_path(trait_path: TraitPath) -> TraitPath {
        trait_path
    }
    fn resolve_struct(_: &TypeContext, _: StructId) -> &StructDef<Self> {
        panic!("no such struct definitions")
    }
}

/// How a position holds opaques, names structs, and which types without lifetimes it has.
trait Position: TyPosition {
    /// The owner of an opaque, owned for `None`. `Err` is a stand-in where the position has no such owner.
    fn owner(b: Option<Borrow>) -> Result<Self::OpaqueOwnership, Self::OpaqueOwnership>;
    fn path(p: StructPath) -> Self::StructPath;
    /// a callback or a trait, where the position has them
    fn input_only(_trait: bool) -> Option<Type<Self>> {
        None
    }
}

fn borrow_or_static(b: Option<Borrow>) -> Result<Borrow, Borrow> {
    b.ok_or(Borrow::new(MaybeStatic::Static, Mutability::Immutable))
}

fn callback_or_trait<P>(traits: bool) -> Type<P>
where
    P: TyPosition<CallbackInstantiation = Callback, TraitPath = TraitPath>,
{
    if traits {
        Type::ImplTrait(TraitPath::new(
            lowered_list(&[1, 2]),
            TraitId::oracle_new(0),
        ))
    } else {
        Type::Callback(Callback {
            param_self: None,
            params: Vec::new(),
            output: Box::new(ReturnType::Infallible(SuccessType::Unit)),
            name: None,
            attrs: None,
            docs: None,
        })
    }
}

impl Position for Everywhere {
    fn owner(b: Option<Borrow>) -> Result<Borrow, Borrow> {
        borrow_or_static(b)
    }
    fn path(p: StructPath) -> StructPath {
        p
    }
}
impl Position for InputOnly {
    fn owner(b: Option<Borrow>) -> Result<Borrow, Borrow> {
        borrow_or_static(b)
    }
    fn path(p: StructPath) -> StructPath {
        p
    }
    fn input_only(traits: bool) -> Option<Type<Self>> {
        Some(callback_or_trait(traits))
    }
}
impl Position for SheetInput {
    fn owner(b: Option<Borrow>) -> Result<MaybeOwn, MaybeOwn> {
        Ok(b.into())
    }
    fn path(p: StructPath) -> StructPath {
        p
    }
    fn input_only(traits: bool) -> Option<Type<Self>> {
        Some(callback_or_trait(traits))
    }
}
impl Position for OutputOnly {
    fn owner(b: Option<Borrow>) -> Result<MaybeOwn, MaybeOwn> {
        Ok(b.into())
    }
    fn path(p: StructPath) -> ReturnableStructPath {
        ReturnableStructPath::Struct(p)
    }
}

fn borrow(word: u32, forms: &mut Forms) -> Borrow {
    let m = if forms.pick(2) == 0 {
        Mutability::Immutable
    } else {
        Mutability::Mutable
    };
    Borrow::new(lowered(word), m)
}

/// One lowered type. `exact` becomes false where the position has only a stand-in for it.
fn hir_type<P: Position>(w: &mut Words, forms: &mut Forms, exact: &mut bool) -> Type<P> {
    match w.word() {
        0 => match forms.pick(4) {
            0 => Type::Primitive(PrimitiveType::U8),
            1 => Type::Enum(EnumPath::new(EnumId::oracle_new(0))),
            k => P::input_only(k == 2).unwrap_or(Type::Primitive(PrimitiveType::Ordering)),
        },
        1 => {
            let optional = flag(w);
            let n = w.count();
            let lifetimes = lowered_list(w.take(n));
            let b = if flag(w) {
                Some(borrow(w.word(), forms))
            } else {
                None
            };
            let owner = P::owner(b).unwrap_or_else(|stand_in| {
                *exact = false;
                stand_in
            });
            Type::Opaque(OpaquePath::new(
                lifetimes,
                Optional(optional),
                owner,
                OpaqueId::oracle_new(0),
            ))
        }
        2 => {
            let row = w.count();
            let n = w.count();
            let lifetimes = lowered_list(w.take(n));
            // owned or borrowed: no list of lifetimes has the borrow
            let owner = match forms.pick(3) {
                0 => MaybeOwn::Own,
                k => MaybeOwn::Borrow(borrow(k as u32, forms)),
            };
            Type::Struct(P::path(StructPath::new(
                lifetimes,
                StructId::oracle_new(row),
                owner,
            )))
        }
        3 => {
            let text = StringEncoding::UnvalidatedUtf8;
            let no_struct = || {
                P::path(StructPath::new(
                    lowered_list(&[]),
                    StructId::oracle_new(0),
                    MaybeOwn::Own,
                ))
            };
            let enm = || EnumPath::new(EnumId::oracle_new(0));
            Type::Slice(match w.word() {
                0 => match forms.pick(4) {
                    0 => Slice::Str(None, text),
                    1 => Slice::Primitive(MaybeOwn::Own, PrimitiveType::U8),
                    2 => Slice::Struct(MaybeOwn::Own, no_struct()),
                    _ => Slice::Enum(MaybeOwn::Own, enm()),
                },
                1 => {
                    let word = w.word();
                    match forms.pick(4) {
                        0 => Slice::Str(Some(lowered(word)), text),
                        k => {
                            let b = MaybeOwn::Borrow(borrow(word, forms));
                            match k {
                                1 => Slice::Primitive(b, PrimitiveType::U8),
                                2 => Slice::Struct(b, no_struct()),
                                _ => Slice::Enum(b, enm()),
                            }
                        }
                    }
                }
                2 => Slice::Strs(text),
                3 => {
                    let n = w.count();
                    let lifetimes = lowered_list(w.take(n));
                    let word = w.word();
                    let opaque = |own_word, forms: &mut Forms| {
                        OpaquePath::new(
                            lifetimes,
                            Optional(forms.pick(2) == 1),
                            borrow(own_word, forms),
                            OpaqueId::oracle_new(0),
                        )
                    };
                    match forms.pick(3) {
                        // &'word [&'static Opaque<words>]
                        0 => Slice::Opaque(MaybeOwn::Borrow(borrow(word, forms)), opaque(0, forms)),
                        // the same with another inner borrow, which no list has either
                        1 => Slice::Opaque(MaybeOwn::Borrow(borrow(word, forms)), opaque(1, forms)),
                        // Box<[&'word Opaque<words>]>
                        _ => Slice::Opaque(MaybeOwn::Own, opaque(word, forms)),
                    }
                }
                c => panic!("sheet: unknown slice {c}"),
            })
        }
        4 => {
            let inner = hir_type(w, forms, exact);
            assert!(
                !matches!(inner, Type::DiplomatOption(_)),
                "sheet: option in option"
            );
            Type::DiplomatOption(Box::new(inner))
        }
        c => panic!("sheet: unknown type code {c}"),
    }
}

fn flag(w: &mut Words) -> bool {
    match w.word() {
        0 => false,
        1 => true,
        c => panic!("sheet: unknown flag {c}"),
    }
}

/// The environment of a row: d lifetimes without bounds, which is all that a row says.
fn row_env(d: usize, engine: &mut Engine) -> LifetimeEnv {
    let nodes = (0..d)
        .map(|_| BoundedLifetime::new(engine.ident("d"), SmallVec::new(), SmallVec::new()))
        .collect();
    LifetimeEnv::new(nodes, d)
}

fn structs(sheet: &Sheet, engine: &mut Engine, forms: &mut Forms) -> TypeContext {
    let mut w = sheet.record(6);
    let mut rows = Vec::new();
    while w.more() {
        let d = w.count();
        let n = w.count();
        let fields = (0..n)
            .map(|_| StructField {
                docs: Docs::default(),
                name: engine.ident("f"),
                // the stand-in for an owned opaque will do: a field's opaque is never looked at
                ty: hir_type::<Everywhere>(&mut w, forms, &mut true),
                attrs: Attrs::default(),
            })
            .collect();
        rows.push(StructDef::new(
            Docs::default(),
            defs::Ident::new(engine.ident("S"), None),
            fields,
            Vec::new(),
            Attrs::default(),
            row_env(d, engine),
            SpecialMethodPresence::default(),
        ));
    }
    TypeContext::oracle_new(rows)
}

fn output(mut w: Words, forms: &mut Forms) -> ReturnType {
    let mut exact = true;
    let mut types: SmallVec<[OutType; 2]> = SmallVec::new();
    while w.more() {
        types.push(hir_type::<OutputOnly>(&mut w, forms, &mut exact));
    }
    assert!(exact);
    let mut types = types.into_iter();
    match (types.next(), types.next(), types.next()) {
        (None, ..) => match forms.pick(3) {
            0 => ReturnType::Infallible(SuccessType::Unit),
            1 => ReturnType::Nullable(SuccessType::Write(super::WriteType::Str)),
            _ => ReturnType::Fallible(SuccessType::Unit, None),
        },
        (Some(first), None, _) => match forms.pick(4) {
            0 => ReturnType::Infallible(SuccessType::OutType(first)),
            1 => ReturnType::Nullable(SuccessType::OutType(first)),
            2 => ReturnType::Fallible(SuccessType::OutType(first), None),
            _ => ReturnType::Fallible(SuccessType::Unit, Some(first)),
        },
        (Some(first), Some(second), None) => {
            ReturnType::Fallible(SuccessType::OutType(first), Some(second))
        }
        _ => panic!("sheet: words over"),
    }
}

// ---------------------------------------------------------------------------------------------
// A method

pub struct Lowered {
    self_: Option<usize>,
    steps: Vec<usize>,
    returns: Vec<usize>,
}

/// A sheet's method in the Rust's own values, and what its elision answered.
pub struct Case {
    lowered: Lowered,
    tcx: TypeContext,
    method: Method,
    /// parameters that are visited in `SheetInput`, by number
    inexact: BTreeMap<usize, Type<SheetInput>>,
    /// the parameters' names: their numbers
    names: Vec<String>,
}

/// An environment from numbers: declared, count, then pairs longer, shorter. For methods made by hand,
/// whose environment comes from no sheet.
pub fn hand_env(engine: &mut Engine, words: &[usize]) -> LifetimeEnv {
    let [declared, count, pairs @ ..] = words else {
        panic!("hand: declared and count are missing")
    };
    assert!(pairs.len() % 2 == 0, "hand: half a bound");
    let mut nodes: SmallVec<[BoundedLifetime; lifetimes::INLINE_NUM_LIFETIMES]> = (0..*declared)
        .map(|_| BoundedLifetime::new(engine.ident("h"), SmallVec::new(), SmallVec::new()))
        .collect();
    for p in pairs.chunks(2) {
        nodes[p[1]].longer.push(Lifetime::new(p[0]));
        nodes[p[0]].shorter.push(Lifetime::new(p[1]));
    }
    LifetimeEnv::new(nodes, *count)
}

/// Told at each place of a run where a part of it ends.
pub trait Clock {
    fn mark(&mut self, phase: usize);
}

/// the parts: text to words; inputs of the supplied code; the supplied code; answers to text
pub const PHASES: [&str; 4] = ["read", "inputs", "library", "print"];
const READ: usize = 0;
const INPUTS: usize = 1;
const LIBRARY: usize = 2;
const PRINT: usize = 3;

pub struct NoClock;

impl Clock for NoClock {
    fn mark(&mut self, _: usize) {}
}

pub struct PhaseClock {
    pub last: std::time::Instant,
    pub ns: [u128; 4],
}

impl Clock for PhaseClock {
    fn mark(&mut self, phase: usize) {
        let now = std::time::Instant::now();
        self.ns[phase] += (now - self.last).as_nanos();
        self.last = now;
    }
}

impl Case {
    pub fn new(
        engine: &mut Engine,
        sheet: &Sheet,
        forms: &mut Forms,
        clock: &mut impl Clock,
    ) -> Case {
        // All records first: a torn one panics here, and what follows is the supplied code alone.
        let inputs = AstInputs::new(sheet, forms);
        let mut w = sheet.record(3);
        let self_ref = w.more().then(|| declared(w.word()));
        assert!(!w.more(), "sheet: words over");
        let params_steps = steps(sheet.record(4), forms);
        let return_steps = steps(sheet.record(5), forms);
        let tcx = structs(sheet, engine, forms);
        let mut w = sheet.record(7);
        let mut params = Vec::new();
        let mut inexact = BTreeMap::new();
        while w.more() {
            let mut again = w;
            let mut exact = true;
            let ty = hir_type::<InputOnly>(&mut w, forms, &mut exact);
            if !exact || forms.pick(4) == 1 {
                let ty = hir_type::<SheetInput>(&mut again, forms, &mut true);
                inexact.insert(params.len(), ty);
            }
            params.push(Param::new(engine.ident("p"), ty, Attrs::default()));
        }
        let names = (0..params.len()).map(|i| i.to_string()).collect();
        let output = output(sheet.record(8), forms);
        let mut w = sheet.record(9);
        assert!(!flag(&mut w), "sheet: force is retired");
        assert!(!w.more(), "sheet: words over");
        let name = defs::Ident::new(engine.ident("m"), None);
        let abi_name = engine.ident("m");
        let hand = engine.hand.clone().map(|words| hand_env(engine, &words));
        clock.mark(INPUTS);

        let ast = inputs.env();

        // self, then the steps, then the returns, each lowerer made from the one before
        let self_lowerer =
            SelfParamLifetimeLowerer::new(&ast, &mut engine.ctx).expect("names are identifiers");
        let mut lowered = Lowered {
            self_: None,
            steps: Vec::new(),
            returns: Vec::new(),
        };
        let mut param_lowerer: ParamLifetimeLowerer = match &self_ref {
            Some(lt) => {
                let (lt, next) = self_lowerer.lower_self_ref(lt);
                lowered.self_ = Some(word_of(lt));
                next
            }
            None => self_lowerer.no_self_ref(),
        };
        for step in &params_steps {
            take_step(
                step,
                &mut param_lowerer,
                &engine.generics,
                &mut lowered.steps,
            );
        }
        let mut return_lowerer: ReturnLifetimeLowerer = param_lowerer.into_return_ltl();
        for step in &return_steps {
            take_step(
                step,
                &mut return_lowerer,
                &engine.generics,
                &mut lowered.returns,
            );
        }
        let lifetime_env = return_lowerer.finish();

        Case {
            lowered,
            tcx,
            method: Method {
                docs: Docs::default(),
                name,
                abi_name,
                lifetime_env: hand.unwrap_or(lifetime_env),
                param_self: None,
                params,
                output,
                attrs: Attrs::default(),
            },
            inexact,
            names,
        }
    }

    fn visitor(&self) -> BorrowingParamVisitor<'_> {
        // force is retired: the Rust gets false
        self.method.borrowing_param_visitor(&self.tcx, false)
    }

    fn visit<'t>(
        &'t self,
        visitor: &mut BorrowingParamVisitor<'t>,
        param: usize,
    ) -> ParamBorrowInfo<'t> {
        let name = &self.names[param];
        match self.inexact.get(&param) {
            Some(ty) => visitor.visit_param(ty, name),
            None => visitor.visit_param(&self.method.params[param].ty, name),
        }
    }
}

// ---------------------------------------------------------------------------------------------
// Printing

pub struct Out(pub Vec<u8>);

impl Out {
    fn text(&mut self, s: &str) {
        self.0.extend_from_slice(s.as_bytes());
    }
    /// words with a space between, and a newline
    fn line(&mut self, words: impl IntoIterator<Item = usize>) {
        let mut first = true;
        for mut w in words {
            if !first {
                self.0.push(b' ');
            }
            first = false;
            let mut digits = [0u8; 20];
            let mut i = digits.len();
            loop {
                i -= 1;
                digits[i] = b'0' + (w % 10) as u8;
                w /= 10;
                if w == 0 {
                    break;
                }
            }
            self.0.extend_from_slice(&digits[i..]);
        }
        self.0.push(b'\n');
    }
}

fn answer(info: &ParamBorrowInfo) -> usize {
    match info {
        ParamBorrowInfo::NotBorrowed => 0,
        ParamBorrowInfo::TemporarySlice => 1,
        ParamBorrowInfo::BorrowedSlice => 2,
        ParamBorrowInfo::Struct(_) => 3,
        ParamBorrowInfo::BorrowedOpaque => 4,
    }
}

/// def and used, one pair after another
fn pairs(info: &StructBorrowInfo) -> Vec<usize> {
    let mut v = Vec::new();
    for (def, useds) in &info.borrowed_struct_lifetime_map {
        for used in useds {
            v.push(number(*def));
            v.push(number(*used));
        }
    }
    v
}

fn edge_lines(map: &BTreeMap<Lifetime, BorrowedLifetimeInfo>) -> Vec<[usize; 5]> {
    let mut edges = Vec::new();
    for (used, info) in map {
        let used = number(*used);
        for edge in &info.incoming_edges {
            let param: usize = edge.param_name.parse().unwrap();
            edges.push(match edge.kind {
                LifetimeEdgeKind::OpaqueParam => [used, param, 1, 0, 0],
                LifetimeEdgeKind::SliceParam => [used, param, 2, 0, 0],
                LifetimeEdgeKind::StructLifetime(_, def, option) => {
                    [used, param, 3, number(def), usize::from(option)]
                }
            });
        }
    }
    edges
}

#[derive(Copy, Clone, PartialEq)]
pub enum Direction {
    Longer,
    Shorter,
}

/// A sheet's listing; in its block of traversals, all shorter lifetimes where `dir` says so.
pub fn listing(
    engine: &mut Engine,
    sheet: &Sheet,
    forms: &mut Forms,
    dir: Direction,
    out: &mut Out,
    clock: &mut impl Clock,
) {
    clock.mark(READ);
    let case = Case::new(engine, sheet, forms, clock);
    let env = &case.method.lifetime_env;
    let mut visitor = case.visitor();
    let answers: SmallVec<[usize; 16]> = (0..case.method.params.len())
        .map(|i| answer(&case.visit(&mut visitor, i)))
        .collect();
    let map = visitor.borrow_map();
    // the traversals one after another, and where each ends
    let mut walks = Vec::new();
    let mut ends = Vec::new();
    for lt in env.all_lifetimes() {
        match dir {
            Direction::Longer => walks.extend(env.all_longer_lifetimes(lt).map(number)),
            Direction::Shorter => walks.extend(env.all_shorter_lifetimes(lt).map(number)),
        }
        ends.push(walks.len());
    }
    clock.mark(LIBRARY);

    let edges = edge_lines(&map);
    out.text("lifetimes used params edges\n");
    out.line([env.num_lifetimes(), map.len(), answers.len(), edges.len()]);
    out.text("lowered\n");
    out.line(case.lowered.self_);
    out.line(case.lowered.steps.iter().copied());
    out.line(case.lowered.returns.iter().copied());
    out.text(match dir {
        Direction::Longer => "lifetime longer\n",
        Direction::Shorter => "lifetime shorter\n",
    });
    let mut start = 0;
    for (i, &end) in ends.iter().enumerate() {
        out.line([i].into_iter().chain(walks[start..end].iter().copied()));
        start = end;
    }
    out.text("param answer\n");
    for (i, a) in answers.iter().enumerate() {
        out.line([i, *a]);
    }
    out.text("used param kind def option\n");
    for e in &edges {
        out.line(e.iter().copied());
    }
    clock.mark(PRINT);
}

/// For each declared name, what the AST's `longer_than` lists, then what `shorter_than` does, by number.
pub fn ast_lists(sheet: &Sheet, forms: &mut Forms, out: &mut Out) {
    let env = AstInputs::new(sheet, forms).env();
    for longer in [true, false] {
        out.text(if longer {
            "name longer\n"
        } else {
            "name shorter\n"
        });
        for (i, name) in env.names().enumerate() {
            let list = if longer {
                ast::LifetimeTransitivity::longer_than(&env, name)
            } else {
                ast::LifetimeTransitivity::shorter_than(&env, name)
            };
            out.line(
                [i].into_iter()
                    .chain(list.into_iter().map(|n| env.id(n).unwrap())),
            );
        }
    }
}

/// The environment that elision finishes with: how many lifetimes and bounds, then each declared one's
/// `longer` and `shorter` list as pushed.
pub fn bounds(engine: &mut Engine, sheet: &Sheet, forms: &mut Forms, out: &mut Out) {
    let case = Case::new(engine, sheet, forms, &mut NoClock);
    let env = &case.method.lifetime_env;
    let declared: Vec<&BoundedLifetime> = env
        .all_lifetimes()
        .map_while(|lt| env.get_bounds(lt))
        .collect();
    out.text("declared lifetimes bounds\n");
    out.line([
        declared.len(),
        env.num_lifetimes(),
        declared.iter().map(|b| b.longer.len()).sum(),
    ]);
    out.text("lifetime longer\n");
    for (i, b) in declared.iter().enumerate() {
        out.line([i].into_iter().chain(b.longer.iter().copied().map(number)));
    }
    out.text("lifetime shorter\n");
    for (i, b) in declared.iter().enumerate() {
        out.line([i].into_iter().chain(b.shorter.iter().copied().map(number)));
    }
}

/// `compute_for_struct_field` of every struct field: row, field, pairs def and outer. No pairs: the Rust
/// answered none. Fields of other types are passed over.
pub fn fields(engine: &mut Engine, sheet: &Sheet, forms: &mut Forms, out: &mut Out) {
    let case = Case::new(engine, sheet, forms, &mut NoClock);
    out.text("row field pairs\n");
    for (r, row) in case.tcx.structs().iter().enumerate() {
        for (f, field) in row.fields.iter().enumerate() {
            let Type::Struct(path) = field.ty.unwrap_option() else {
                continue;
            };
            let info = StructBorrowInfo::compute_for_struct_field(row, path, &case.tcx);
            let p = info.as_ref().map(pairs).unwrap_or_default();
            out.line([r, f].into_iter().chain(p));
        }
    }
}

/// Visits of parameters in any order, also repeated: each one's answer and the pairs that it carries,
/// then the edges of each used lifetime as pushed.
pub fn visits(
    engine: &mut Engine,
    sheet: &Sheet,
    forms: &mut Forms,
    order: &[usize],
    out: &mut Out,
) {
    let case = Case::new(engine, sheet, forms, &mut NoClock);
    let mut visitor = case.visitor();
    out.text("param answer pairs\n");
    for &param in order {
        let info = case.visit(&mut visitor, param);
        let carried = match &info {
            ParamBorrowInfo::Struct(s) => pairs(s),
            _ => Vec::new(),
        };
        out.line([param, answer(&info)].into_iter().chain(carried));
    }
    out.text("used param kind def option\n");
    for e in edge_lines(&visitor.borrow_map()) {
        out.line(e);
    }
}
