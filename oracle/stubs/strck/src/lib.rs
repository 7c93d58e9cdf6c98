//! In place of the crate `strck`: `IntoCk::ck` and Rust identifiers, ASCII ones only.

use std::borrow::Borrow;
use std::fmt;
use std::ops::Deref;

pub trait IntoCk {
    fn ck(&self) -> Result<&ident::rust::Ident, Error>;
}

impl IntoCk for str {
    fn ck(&self) -> Result<&ident::rust::Ident, Error> {
        let mut bytes = self.bytes();
        match bytes.next() {
            Some(b) if b == b'_' || b.is_ascii_alphabetic() => {}
            _ => return Err(Error),
        }
        if self == "_" || !bytes.all(|b| b == b'_' || b.is_ascii_alphanumeric()) {
            return Err(Error);
        }
        Ok(ident::rust::Ident::of(self))
    }
}

#[derive(Debug)]
pub struct Error;

impl fmt::Display for Error {
    fn fmt(&self, f: &mut fmt::Formatter<'_>) -> fmt::Result {
        f.write_str("not a Rust identifier")
    }
}

pub mod ident {
    pub mod rust {
        use super::super::*;

        #[derive(PartialEq, Eq, Hash, PartialOrd, Ord)]
        #[repr(transparent)]
        pub struct Ident(str);

        impl Ident {
            pub(crate) fn of(s: &str) -> &Ident {
                // SAFETY: `Ident` is `repr(transparent)` over `str`, so the two references have one layout.
                unsafe { &*(s as *const str as *const Ident) }
            }
            pub fn as_str(&self) -> &str {
                &self.0
            }
        }

        #[derive(Clone, PartialEq, Eq, Hash, PartialOrd, Ord)]
        pub struct IdentBuf(String);

        impl ToOwned for Ident {
            type Owned = IdentBuf;
            fn to_owned(&self) -> IdentBuf {
                IdentBuf(self.0.to_owned())
            }
        }
        impl Borrow<Ident> for IdentBuf {
            fn borrow(&self) -> &Ident {
                self
            }
        }
        impl Deref for IdentBuf {
            type Target = Ident;
            fn deref(&self) -> &Ident {
                Ident::of(&self.0)
            }
        }
        impl PartialEq<&'static str> for IdentBuf {
            fn eq(&self, other: &&'static str) -> bool {
                self.0 == *other
            }
        }
        impl fmt::Display for IdentBuf {
            fn fmt(&self, f: &mut fmt::Formatter<'_>) -> fmt::Result {
                self.0.fmt(f)
            }
        }
        impl fmt::Debug for IdentBuf {
            fn fmt(&self, f: &mut fmt::Formatter<'_>) -> fmt::Result {
                fmt::Debug::fmt(&self.0, f)
            }
        }
        impl fmt::Display for Ident {
            fn fmt(&self, f: &mut fmt::Formatter<'_>) -> fmt::Result {
                self.0.fmt(f)
            }
        }
    }
}
