//! The Rust beside which this repository is held: the supplied files of diplomat_core 0.17.0,
//! compiled as they are, and a driver that feeds them a method sheet and prints the listing that the
//! scope paper ("01") asks for. README.md says what stands in for the files that are not supplied.
//!
//! `Oracle` is the whole in one value, for a bench or a test in the same process; `cli` is the
//! program of the same name.

// The supplied files are a part of a crate: much of them is not called here, and they were written
// for a crate of another layout and another compiler's lints.
#![allow(dead_code, unused_imports, non_local_definitions, private_interfaces)]
#![allow(mismatched_lifetime_syntaxes, unexpected_cfgs)]

pub mod ast;
pub mod cli;
mod environment;
pub mod hir;

pub use environment::Env;

use hir::driver::{self, Direction, Engine, Forms, NoClock, Out, PhaseClock, Sheet};
use std::time::Instant;

/// Nanoseconds of one run, by what they went into. The freeing of memory is in none of them.
#[derive(Clone, Copy, Debug, Default)]
pub struct Phases {
    /// text to words
    pub read: u64,
    /// our making of syn, AST and HIR values from the words
    pub inputs: u64,
    /// the supplied code: `from_method_item`, the lowerers, the visitor, `borrow_map`, the traversals
    pub library: u64,
    /// the listing's text
    pub print: u64,
}

/// Whatever a run needs that no sheet changes.
pub struct Oracle(Engine);

impl Default for Oracle {
    fn default() -> Self {
        Oracle(Engine::new())
    }
}

impl Oracle {
    /// The listing of a sheet that 01 accepts, behind what stands in `out`. Any other sheet may panic.
    pub fn list(&mut self, sheet: &[u8], out: &mut Vec<u8>) {
        let sheet = Sheet::read(sheet);
        let mut text = Out(std::mem::take(out));
        driver::listing(
            &mut self.0,
            &sheet,
            &mut Forms::new(0),
            Direction::Longer,
            &mut text,
            &mut NoClock,
        );
        *out = text.0;
    }

    /// The same with a clock at four places; the clock itself is in the figures.
    pub fn list_timed(&mut self, sheet: &[u8], out: &mut Vec<u8>) -> Phases {
        let mut clock = PhaseClock {
            last: Instant::now(),
            ns: [0; 4],
        };
        let sheet = Sheet::read(sheet);
        let mut text = Out(std::mem::take(out));
        driver::listing(
            &mut self.0,
            &sheet,
            &mut Forms::new(0),
            Direction::Longer,
            &mut text,
            &mut clock,
        );
        *out = text.0;
        let [read, inputs, library, print] = clock.ns.map(|ns| ns as u64);
        Phases {
            read,
            inputs,
            library,
            print,
        }
    }
}
