//! Which arguments a method's result has to keep alive, from a method sheet; and the sheet's text, from its records
//! ([`Sheet`]).
//!
//! The work is done by a static library every function of which is proved to meet its contract
//! (`crates/exports` of the repository); here it gets Rust types and memory. What is unproved is this file: it lends
//! slices, and names the numbers that come back.
//!
//! ```
//! let sheet = b"names bounds types self steps returns structs params output force\n\
//!               0 7 9\n0\n2 7 1 1 9\n\n0 7 0 9 0 1\n0 7\n\n1 0 1 2 1 1 3 1 3\n1 0 1 1 0\n0\n";
//! let borrows = dovrelka::borrows(sheet).unwrap();
//! assert_eq!(borrows.used, [0]);
//! // the first parameter is kept, the second need not be
//! assert_eq!(borrows.answers, [dovrelka::Answer::BorrowedOpaque, dovrelka::Answer::TemporarySlice]);
//! assert_eq!(borrows.edges[0].param, 0);
//! assert_eq!(dovrelka::listing(b""), Err(dovrelka::Refusal::Unreadable));
//! ```
//!
//! How much stack a call takes depends on the sheet, and is measured, not proved: `listing` was seen to take 16
//! kilobytes for a short sheet and up to 499 for a long one, `borrows` 90 to 170, writing a sheet less than 3. `STACK`
//! bytes are enough for each; a thread that Rust starts has two megabytes, unless its maker says otherwise.

use std::fmt;

/// The version of include/borrows.h that this crate is written for.
pub const VERSION: usize = 2;
/// So many bytes take any listing, and so many words its length.
pub const LISTING_BYTES: usize = 131_072;
pub const LISTING_WORDS: usize = 1;
/// So many words take the used lifetimes of any sheet,
pub const USED: usize = 34;
/// the answers of its parameters,
pub const ANSWERS: usize = 16;
/// and its edges: so many, of so many words each, and all their words.
pub const EDGES: usize = 8_704;
pub const WORDS_PER_EDGE: usize = 5;
pub const EDGE_WORDS: usize = EDGES * WORDS_PER_EDGE;
/// Used lifetimes, parameters, edges.
pub const COUNTS: usize = 3;
/// A sheet has so many records.
pub const RECORDS: usize = 10;
/// So many bytes take the text of any sheet that is written, and so many words its length.
pub const WRITTEN_BYTES: usize = 61_506;
pub const WRITTEN_WORDS: usize = 1;
/// So many bytes of stack take any call: measured, with room to spare.
pub const STACK: usize = 655_360;

// As crates/exports/src declares them: a slice is a pointer, then a length.
extern "C" {
    fn borrows_listing(
        sheet: *const u8,
        sheet_len: usize,
        out: *mut u8,
        out_len: usize,
        written: *mut usize,
        written_len: usize,
    ) -> usize;
    fn borrows_sheet(
        sheet: *const u8,
        sheet_len: usize,
        used: *mut usize,
        used_len: usize,
        answers: *mut usize,
        answers_len: usize,
        edges: *mut usize,
        edges_len: usize,
        counts: *mut usize,
        counts_len: usize,
    ) -> usize;
    fn borrows_write_sheet(
        words: *const usize,
        words_len: usize,
        ends: *const usize,
        ends_len: usize,
        out: *mut u8,
        out_len: usize,
        written: *mut usize,
        written_len: usize,
    ) -> usize;
}

/// Why a sheet is refused. The numbers are those of the papers; there may be further ones some day.
#[derive(Clone, Copy, Debug, PartialEq, Eq, Hash, PartialOrd, Ord)]
#[non_exhaustive]
pub enum Refusal {
    /// 1: a record that is not in its shape, or, in `write_sheet_into`, ends that are not those of ten records
    Malformed,
    /// 2: a name declared again
    Duplicate,
    /// 3: an undeclared name where one is looked up
    Undeclared,
    /// 4: one more than a limit takes
    Full,
    /// 5: an elided lifetime in the output, and no input to take it from
    NoSource,
    /// 6: the same, and several inputs
    Ambiguous,
    /// 7: not as many lifetimes as the struct has
    Mismatch,
    /// 8: a lifetime past those that there are
    OutOfRange,
    /// 9: more answers than fit: lent memory too short, or more than 4,096 edges in a listing
    NoRoom,
    /// 10: bytes that are not the text of a sheet, or a word above 65535, which no text can have
    Unreadable,
    /// 13: 1 in `force`, which is no longer taken
    Retired,
    /// A refusal of a later library, which has no name here; `number` tells which. Matched as `Unknown { .. }`. Only
    /// this crate makes one, so it never stands for a number that has a name:
    ///
    /// ```compile_fail,E0603
    /// let made = dovrelka::Refusal::Unknown(3);
    /// ```
    #[non_exhaustive]
    Unknown(usize),
}

impl Refusal {
    pub fn number(self) -> usize {
        match self {
            Refusal::Malformed => 1,
            Refusal::Duplicate => 2,
            Refusal::Undeclared => 3,
            Refusal::Full => 4,
            Refusal::NoSource => 5,
            Refusal::Ambiguous => 6,
            Refusal::Mismatch => 7,
            Refusal::OutOfRange => 8,
            Refusal::NoRoom => 9,
            Refusal::Unreadable => 10,
            Refusal::Retired => 13,
            Refusal::Unknown(number) => number,
        }
    }

    /// What a status says: 0, or why the call is refused.
    fn of(status: usize) -> Result<(), Refusal> {
        Err(match status {
            0 => return Ok(()),
            1 => Refusal::Malformed,
            2 => Refusal::Duplicate,
            3 => Refusal::Undeclared,
            4 => Refusal::Full,
            5 => Refusal::NoSource,
            6 => Refusal::Ambiguous,
            7 => Refusal::Mismatch,
            8 => Refusal::OutOfRange,
            9 => Refusal::NoRoom,
            10 => Refusal::Unreadable,
            13 => Refusal::Retired,
            number => Refusal::Unknown(number),
        })
    }
}

impl fmt::Display for Refusal {
    fn fmt(&self, f: &mut fmt::Formatter<'_>) -> fmt::Result {
        write!(f, "refusal {}: ", self.number())?;
        f.write_str(match self {
            Refusal::Malformed => "a record is not there, or not in its shape",
            Refusal::Duplicate => "a name is declared again",
            Refusal::Undeclared => "an undeclared name is looked up",
            Refusal::Full => "a limit is exceeded",
            Refusal::NoSource => "an elided lifetime has no source",
            Refusal::Ambiguous => "an elided lifetime has several sources",
            Refusal::Mismatch => "a struct is given another number of lifetimes than it has",
            Refusal::OutOfRange => "a lifetime is past those that there are",
            Refusal::NoRoom => "more answers than fit",
            Refusal::Unreadable => "not the text of a sheet, or a word above 65535",
            Refusal::Retired => "force is 1, which is no longer taken",
            Refusal::Unknown(_) => "a number that has no name here",
        })
    }
}

impl std::error::Error for Refusal {}

/// What a parameter's visit answers.
#[derive(Clone, Copy, Debug, PartialEq, Eq, Hash)]
pub enum Answer {
    NotBorrowed = 0,
    /// a slice that need not be kept after the call
    TemporarySlice = 1,
    BorrowedSlice = 2,
    Struct = 3,
    BorrowedOpaque = 4,
}

/// What an edge leads to.
#[derive(Clone, Copy, Debug, PartialEq, Eq, Hash)]
pub enum Kind {
    Opaque = 1,
    Slice = 2,
    Struct = 3,
}

/// For `used`, the result has to hold on to this.
#[derive(Clone, Copy, Debug, PartialEq, Eq, Hash)]
pub struct Edge {
    pub used: usize,
    pub param: usize,
    pub kind: Kind,
    /// of a struct, which of its own lifetimes; else 0
    pub def: usize,
    /// whether the struct may be absent
    pub option: bool,
}

/// What the wrapper of a sheet's method has to hold on to.
#[derive(Clone, Debug, PartialEq, Eq)]
pub struct Borrows {
    /// the lifetimes that the output uses, ascending
    pub used: Vec<usize>,
    /// by parameter
    pub answers: Vec<Answer>,
    /// by used lifetime, parameter, def
    pub edges: Vec<Edge>,
}

/// The listing of a sheet.
pub fn listing(sheet: &[u8]) -> Result<Vec<u8>, Refusal> {
    let mut out = vec![0; LISTING_BYTES];
    let length = listing_into(sheet, &mut out)?;
    out.truncate(length);
    Ok(out)
}

/// The listing of a sheet, to the front of a slice; the answer is its length. Refused, the slice is as it was. With
/// fewer than `LISTING_BYTES` the listing is measured first.
pub fn listing_into(sheet: &[u8], out: &mut [u8]) -> Result<usize, Refusal> {
    let mut written = [0; LISTING_WORDS];
    // SAFETY: each pointer is that of a slice, with its length; the two that are written are borrowed exclusively, so
    // nothing overlaps.
    let status = unsafe {
        borrows_listing(
            sheet.as_ptr(),
            sheet.len(),
            out.as_mut_ptr(),
            out.len(),
            written.as_mut_ptr(),
            written.len(),
        )
    };
    Refusal::of(status)?;
    Ok(written[0])
}

/// Used lifetimes, answers and edges of a sheet.
pub fn borrows(sheet: &[u8]) -> Result<Borrows, Refusal> {
    let mut used = vec![0; USED];
    let mut answers = [0; ANSWERS];
    let mut edges = vec![0; EDGE_WORDS];
    let mut counts = [0; COUNTS];
    borrows_into(sheet, &mut used, &mut answers, &mut edges, &mut counts)?;
    used.truncate(counts[0]);
    Ok(Borrows {
        used,
        answers: answers[..counts[1]].iter().map(|&a| answer(a)).collect(),
        edges: edges[..counts[2] * WORDS_PER_EDGE]
            .chunks_exact(WORDS_PER_EDGE)
            .map(edge)
            .collect(),
    })
}

/// The same as words: used lifetimes, answers, edges of `WORDS_PER_EDGE` words each, and how many of each there are.
/// Refused, all four slices are as they were.
pub fn borrows_into(
    sheet: &[u8],
    used: &mut [usize],
    answers: &mut [usize],
    edges: &mut [usize],
    counts: &mut [usize],
) -> Result<(), Refusal> {
    // SAFETY: as in `listing_into`.
    let status = unsafe {
        borrows_sheet(
            sheet.as_ptr(),
            sheet.len(),
            used.as_mut_ptr(),
            used.len(),
            answers.as_mut_ptr(),
            answers.len(),
            edges.as_mut_ptr(),
            edges.len(),
            counts.as_mut_ptr(),
            counts.len(),
        )
    };
    Refusal::of(status)
}

/// A sheet by its ten records, each a list of words. What the words mean is said in docs/SHEET.md of the repository,
/// record by record.
///
/// The example of the scope paper, filled record by record, written, and its listing asked:
///
/// ```
/// let mut sheet = dovrelka::Sheet::new();
/// sheet.names = vec![0, 7, 9];
/// sheet.types = vec![2, 7, 1, 1, 9];
/// sheet.steps = vec![0, 7, 0, 9, 0, 1];
/// sheet.returns = vec![0, 7];
/// sheet.params = vec![1, 0, 1, 2, 1, 1, 3, 1, 3];
/// sheet.output = vec![1, 0, 1, 1, 0];
///
/// let text = sheet.write()?; // the bytes of a file
/// assert!(text.ends_with(b"\n1 0 1 2 1 1 3 1 3\n1 0 1 1 0\n0\n"));
/// let listing = dovrelka::listing(&text)?;
/// assert!(listing.starts_with(b"lifetimes used params edges\n3 1 2 1\n"));
/// # Ok::<(), dovrelka::Refusal>(())
/// ```
#[derive(Clone, Debug, PartialEq, Eq, Hash)]
pub struct Sheet {
    /// how many of the names are the impl's; then all names
    pub names: Vec<usize>,
    /// how many of the pairs are the impl's; then the pairs, the longer lifetime first
    pub bounds: Vec<usize>,
    /// the types of self, parameters and result, from which bounds come that nobody wrote
    pub types: Vec<usize>,
    /// the record `self`, which cannot be a field's name: the lifetime of `&self`; empty where there is none
    pub self_ref: Vec<usize>,
    /// the lifetimes of the inputs, in order
    pub steps: Vec<usize>,
    /// the lifetimes of the result
    pub returns: Vec<usize>,
    /// a row for each struct that is passed by its fields
    pub structs: Vec<usize>,
    /// the types of the parameters, self first
    pub params: Vec<usize>,
    /// the type of the result: none, one, or two
    pub output: Vec<usize>,
    /// one word, 0; 1 is retired
    pub force: Vec<usize>,
}

impl Sheet {
    /// The smallest sheet that is accepted: no names, no bounds, nothing passed and nothing returned. `names` and
    /// `bounds` have their count of 0, `force` is 0, all other records are empty.
    pub fn new() -> Sheet {
        Sheet {
            names: vec![0],
            bounds: vec![0],
            types: Vec::new(),
            self_ref: Vec::new(),
            steps: Vec::new(),
            returns: Vec::new(),
            structs: Vec::new(),
            params: Vec::new(),
            output: Vec::new(),
            force: vec![0],
        }
    }

    /// The records in the order of their lines.
    fn records(&self) -> [&[usize]; RECORDS] {
        [
            &self.names,
            &self.bounds,
            &self.types,
            &self.self_ref,
            &self.steps,
            &self.returns,
            &self.structs,
            &self.params,
            &self.output,
            &self.force,
        ]
    }

    /// The sheet's text. Read again it is the same records, and the records of a sheet that was read are written as
    /// that very sheet.
    ///
    /// Refused by 10 for a word above 65535 in any record, then by 1 where a record is not in its shape or has more
    /// than 1,024 words, then by 13 where `force` is 1. Nothing else prevents writing: a name declared again, for
    /// instance, is refused only when the listing is asked.
    pub fn write(&self) -> Result<Vec<u8>, Refusal> {
        let mut words = Vec::new();
        let mut ends = [0; RECORDS];
        for (end, record) in ends.iter_mut().zip(self.records()) {
            words.extend_from_slice(record);
            *end = words.len();
        }
        let mut out = vec![0; WRITTEN_BYTES];
        let length = write_sheet_into(&words, &ends, &mut out)?;
        out.truncate(length);
        Ok(out)
    }
}

impl Default for Sheet {
    /// The smallest sheet, as `new`: with ten empty records it would not be one.
    fn default() -> Sheet {
        Sheet::new()
    }
}

/// The text of a sheet, to the front of a slice; the answer is its length. Refused, the slice is as it was. `words` are
/// those of the ten records, one record after another; `ends` are the ten places behind the last word of each. Words
/// behind the last end are not looked at.
///
/// Refused as `Sheet::write` is, then by 9 where `out` is too short; and by 1 before all else where the ends are not
/// ten, not ascending, or past the words. With fewer than `WRITTEN_BYTES` the text is measured first.
pub fn write_sheet_into(words: &[usize], ends: &[usize], out: &mut [u8]) -> Result<usize, Refusal> {
    let mut written = [0; WRITTEN_WORDS];
    // SAFETY: as in `listing_into`. `words` and `ends` may share memory: neither is written.
    let status = unsafe {
        borrows_write_sheet(
            words.as_ptr(),
            words.len(),
            ends.as_ptr(),
            ends.len(),
            out.as_mut_ptr(),
            out.len(),
            written.as_mut_ptr(),
            written.len(),
        )
    };
    Refusal::of(status)?;
    Ok(written[0])
}

fn answer(word: usize) -> Answer {
    match word {
        0 => Answer::NotBorrowed,
        1 => Answer::TemporarySlice,
        2 => Answer::BorrowedSlice,
        3 => Answer::Struct,
        4 => Answer::BorrowedOpaque,
        other => unreachable!("answer {other}: the contract has 0 to 4"),
    }
}

fn edge(words: &[usize]) -> Edge {
    let [used, param, kind, def, option]: [usize; WORDS_PER_EDGE] =
        words.try_into().expect("an edge's words");
    Edge {
        used,
        param,
        kind: match kind {
            1 => Kind::Opaque,
            2 => Kind::Slice,
            3 => Kind::Struct,
            other => unreachable!("kind {other}: the contract has 1 to 3"),
        },
        def,
        option: option != 0,
    }
}

#[cfg(test)]
mod tests {
    use super::*;

    /// The statuses of today, each with its refusal, and numbers that no refusal of today has.
    #[test]
    fn a_status_is_0_or_a_refusal_with_its_number() {
        assert_eq!(Refusal::of(0), Ok(()));
        for status in (1..=1000).chain([11 + 256 * 4096, usize::MAX]) {
            let refusal = Refusal::of(status).unwrap_err();
            assert_eq!(refusal.number(), status);
            let named = matches!(status, 1..=10 | 13);
            assert_eq!(matches!(refusal, Refusal::Unknown(_)), !named);
            assert!(refusal
                .to_string()
                .starts_with(&format!("refusal {status}: ")));
        }
    }

    /// By number, those without a name last.
    #[test]
    fn refusals_are_ordered_by_their_numbers() {
        let refusals: Vec<Refusal> = (1..=10)
            .chain([13, 11, 12])
            .chain(14..20)
            .map(|status| Refusal::of(status).unwrap_err())
            .collect();
        assert!(refusals.windows(2).all(|pair| pair[0] < pair[1]));
    }
}
