//! Makes the file of a sheet from its records: that of the method `replay` of docs/SHEET.md, which says what each word
//! means. The argument is the path of the file.

use dovrelka::Sheet;
use std::error::Error;

/// A lifetime of the signature that is not written.
const ELIDED: usize = 1;

/// The lifetimes of the method by their numbers, from the record `structs` on: 'disk, 'seg, 'tail, that of &self and
/// that of `pattern`.
const DISK: usize = 1;
const SEG: usize = 2;
const TAIL: usize = 3;
const OF_SELF: usize = 4;
const OF_PATTERN: usize = 5;

/// Structs by their rows.
const SPAN: usize = 0;
const MARK: usize = 1;

fn replay() -> Sheet {
    // the names as they are written: any words from 2 on
    let (disk, seg, tail) = (2, 3, 4);

    let mut sheet = Sheet::new();
    sheet.names = vec![1, disk, seg, tail]; // the first is the impl's
    sheet.bounds = vec![0, seg, disk];
    sheet.types = [
        &[2, ELIDED, 1, 1, disk][..], // &self, a Journal<'disk>
        &[1, 2, seg, tail],           // Span<'seg, 'tail>
        &[3, 1, 1, seg],              // Option<Mark<'seg>>
        &[2, disk, 1, 1, tail],       // &'disk BlockIndex<'tail>
        &[0],                         // &[u8]
        &[0],                         // Box<Entries<'_, 'disk>>
    ]
    .concat();
    sheet.self_ref = vec![ELIDED];
    sheet.steps = [
        &[2, 1, disk][..],
        &[1, 2, 2, seg, tail],
        &[1, 1, 1, seg],
        &[0, disk],
        &[1, 1, 1, tail],
        &[0, ELIDED],
    ]
    .concat();
    sheet.returns = vec![1, 2, 2, ELIDED, disk];
    sheet.structs = [
        &[2, 2, 3, 1, 1, 3, 1, 2][..], // Span: two lifetimes, two slices
        &[1, 2, 3, 1, 1, 0],           // Mark: one lifetime, a slice and a number
    ]
    .concat();
    sheet.params = [
        &[1, 0, 1, DISK, 1, OF_SELF][..],
        &[2, SPAN, 2, SEG, TAIL],
        &[4, 2, MARK, 1, SEG],
        &[1, 0, 1, TAIL, 1, DISK],
        &[3, 1, OF_PATTERN],
    ]
    .concat();
    sheet.output = vec![1, 0, 2, OF_SELF, DISK, 0];
    sheet
}

fn main() -> Result<(), Box<dyn Error>> {
    let path = std::env::args_os().nth(1).ok_or("write FILE")?;
    std::fs::write(path, replay().write()?)?;
    Ok(())
}
