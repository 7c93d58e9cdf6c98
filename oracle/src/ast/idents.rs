//! In place of `ast/idents.rs`, which is not supplied: identifiers, places in the source, and the two
//! conversions that carry a place. Two identifiers are equal if their texts are: names of lifetimes are
//! compared by this. No places are kept.

use proc_macro2::TokenStream;
use quote::ToTokens;
use serde::{Deserialize, Serialize};
use std::fmt;
use std::hash::{Hash, Hasher};
use std::ops::Range;

#[derive(Clone, Debug)]
pub enum SpanLocation {
    FilePath(String),
    LocalSource(String),
    None,
}

#[derive(Clone, Debug)]
pub struct LineCol {
    pub line: usize,
    pub col: usize,
}

#[derive(Clone, Debug)]
pub struct Span {
    pub start: LineCol,
    pub end: LineCol,
    pub range: Range<usize>,
    pub span_location: SpanLocation,
}

/// `From`, and the place in the source.
pub trait FromWithSpan<T> {
    fn spanned_from(value: T, module_location: &SpanLocation) -> Self;
}

/// `Into`, and the place in the source.
pub trait IntoWithSpan<U> {
    fn spanned_into(self, module_location: &SpanLocation) -> U;
}

impl<T, U: FromWithSpan<T>> IntoWithSpan<U> for T {
    fn spanned_into(self, module_location: &SpanLocation) -> U {
        U::spanned_from(self, module_location)
    }
}

impl FromWithSpan<proc_macro2::Span> for Span {
    fn spanned_from(_: proc_macro2::Span, module_location: &SpanLocation) -> Self {
        Span {
            start: LineCol { line: 0, col: 0 },
            end: LineCol { line: 0, col: 0 },
            range: 0..0,
            span_location: module_location.clone(),
        }
    }
}

#[derive(Clone, Debug, Serialize, Deserialize)]
#[serde(transparent)]
pub struct Ident(String);

impl Ident {
    pub fn new(s: String) -> Self {
        Ident(s)
    }
    pub fn as_str(&self) -> &str {
        &self.0
    }
    pub fn span(&self) -> Option<Span> {
        None
    }
}

impl PartialEq for Ident {
    fn eq(&self, other: &Self) -> bool {
        self.0 == other.0
    }
}
impl Eq for Ident {}
impl PartialOrd for Ident {
    fn partial_cmp(&self, other: &Self) -> Option<std::cmp::Ordering> {
        Some(self.cmp(other))
    }
}
impl Ord for Ident {
    fn cmp(&self, other: &Self) -> std::cmp::Ordering {
        self.0.cmp(&other.0)
    }
}
impl Hash for Ident {
    fn hash<H: Hasher>(&self, h: &mut H) {
        self.0.hash(h)
    }
}
impl fmt::Display for Ident {
    fn fmt(&self, f: &mut fmt::Formatter<'_>) -> fmt::Result {
        self.0.fmt(f)
    }
}
impl ToTokens for Ident {
    fn to_tokens(&self, tokens: &mut TokenStream) {
        proc_macro2::Ident::new(&self.0, proc_macro2::Span::call_site()).to_tokens(tokens)
    }
}
impl FromWithSpan<&syn::Ident> for Ident {
    fn spanned_from(i: &syn::Ident, _: &SpanLocation) -> Self {
        Ident(i.to_string())
    }
}
