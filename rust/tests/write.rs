//! Writing sheets: what is written and how it reads again, a refusal of each number and their order, what a refusal
//! leaves.

use dovrelka::{listing, write_sheet_into, Refusal, Sheet, RECORDS, WRITTEN_BYTES};

const NAMES: &str = "names bounds types self steps returns structs params output force";

/// The bytes of a sheet with these lines.
fn text(lines: [&str; RECORDS]) -> Vec<u8> {
    format!("{NAMES}\n{}\n", lines.join("\n")).into_bytes()
}

/// The records of a sheet, to be looked at or changed by their numbers.
fn records(sheet: &mut Sheet) -> [&mut Vec<usize>; RECORDS] {
    [
        &mut sheet.names,
        &mut sheet.bounds,
        &mut sheet.types,
        &mut sheet.self_ref,
        &mut sheet.steps,
        &mut sheet.returns,
        &mut sheet.structs,
        &mut sheet.params,
        &mut sheet.output,
        &mut sheet.force,
    ]
}

/// A sheet's words, one record after another, and where each record ends.
fn laid(sheet: &Sheet) -> (Vec<usize>, Vec<usize>) {
    let (mut words, mut ends) = (Vec::new(), Vec::new());
    for record in records(&mut sheet.clone()) {
        words.append(record);
        ends.push(words.len());
    }
    (words, ends)
}

/// What a sheet's text is to be, put together here.
fn spelt(sheet: &Sheet) -> Vec<u8> {
    let lines = records(&mut sheet.clone()).map(|record| {
        let words: Vec<String> = record.iter().map(usize::to_string).collect();
        words.join(" ")
    });
    text(lines.each_ref().map(String::as_str))
}

/// A sheet taken apart.
fn read(bytes: &[u8]) -> Sheet {
    let mut sheet = Sheet::new();
    let lines = std::str::from_utf8(bytes).unwrap().lines().skip(1);
    for (record, line) in records(&mut sheet).into_iter().zip(lines) {
        *record = line
            .split_whitespace()
            .map(|w| w.parse().unwrap())
            .collect();
    }
    sheet
}

/// 01's example, as lines and as records.
const EXAMPLE: [&str; RECORDS] = [
    "0 7 9",
    "0",
    "2 7 1 1 9",
    "",
    "0 7 0 9 0 1",
    "0 7",
    "",
    "1 0 1 2 1 1 3 1 3",
    "1 0 1 1 0",
    "0",
];

fn example() -> Sheet {
    Sheet {
        names: vec![0, 7, 9],
        types: vec![2, 7, 1, 1, 9],
        steps: vec![0, 7, 0, 9, 0, 1],
        returns: vec![0, 7],
        params: vec![1, 0, 1, 2, 1, 1, 3, 1, 3],
        output: vec![1, 0, 1, 1, 0],
        ..Sheet::new()
    }
}

/// 1 in `force`, a name that is none, a name that would be one if it were not too large: each alone, or together.
fn damaged(retired: bool, torn: bool, large: bool) -> Sheet {
    let mut sheet = example();
    if retired {
        sheet.force = vec![1];
    }
    if torn {
        sheet.names.push(1);
    }
    if large {
        sheet.names.push(65536);
    }
    sheet
}

#[test]
fn the_example_of_the_paper() {
    let written = example().write().unwrap();
    assert_eq!(written, text(EXAMPLE));
    let listed = listing(&written).unwrap();
    assert!(listed.starts_with(b"lifetimes used params edges\n3 1 2 1\n"));
    assert_eq!(Ok(listed), listing(&text(EXAMPLE)));
}

#[test]
fn sheets_read_and_written_are_the_same_bytes() {
    for bytes in [
        &include_bytes!("../../crates/borrows/stdin")[..],
        include_bytes!("../../examples/replay.sheet"),
        &text(EXAMPLE),
    ] {
        let sheet = read(bytes);
        assert_eq!(sheet.write().unwrap(), bytes);
        assert_eq!(read(&sheet.write().unwrap()), sheet);
    }
}

#[test]
fn the_smallest_sheet_is_accepted() {
    let written = Sheet::new().write().unwrap();
    assert_eq!(written, text(["0", "0", "", "", "", "", "", "", "", "0"]));
    let listed = listing(&written).unwrap();
    assert!(listed.starts_with(b"lifetimes used params edges\n0 0 0 0\n"));
    assert_eq!(Sheet::default(), Sheet::new());
}

#[test]
fn a_word_above_65535_is_refused_by_10() {
    for word in [65536, 65537, 1 << 32, (1 << 32) + 7, usize::MAX] {
        for number in 0..RECORDS {
            let mut sheet = example();
            records(&mut sheet)[number].push(word);
            assert_eq!(sheet.write(), Err(Refusal::Unreadable));
            let mut sheet = example();
            records(&mut sheet)[number].insert(0, word);
            assert_eq!(sheet.write(), Err(Refusal::Unreadable));
        }
    }
    let largest = Sheet {
        names: vec![0, 65535],
        ..Sheet::new()
    };
    assert_eq!(largest.write().unwrap(), spelt(&largest));
}

/// A large word is found behind the most words that a record may have, and behind any others.
#[test]
fn a_word_above_65535_is_found_however_long_its_record_is() {
    for count in [1023, 1024, 1025, 32_768, 100_000] {
        for number in 0..RECORDS {
            let mut sheet = example();
            *records(&mut sheet)[number] = vec![0; count];
            records(&mut sheet)[number].push(65536);
            assert_eq!(sheet.write(), Err(Refusal::Unreadable));
        }
    }
}

#[test]
fn a_record_above_1024_words_is_refused_by_1() {
    let types = |count| Sheet {
        types: vec![0; count],
        ..Sheet::new()
    };
    assert_eq!(types(1024).write().unwrap(), spelt(&types(1024)));
    assert_eq!(types(1025).write(), Err(Refusal::Malformed));
    // so long that its text would be no sheet: these records are not in shape, and that text is not readable
    assert_eq!(types(32_768).write(), Err(Refusal::Malformed));
    assert_eq!(listing(&spelt(&types(1025))), Err(Refusal::Malformed));
    assert_eq!(listing(&spelt(&types(32_768))), Err(Refusal::Unreadable));
}

#[test]
fn a_record_that_is_not_in_its_shape_is_refused_by_1() {
    let cases: [(usize, &[usize]); 15] = [
        (0, &[]),
        (0, &[2, 7]),
        (0, &[0, 1]),
        (1, &[]),
        (1, &[0, 7]),
        (1, &[1]),
        (2, &[5]),
        (3, &[1, 1]),
        (4, &[3]),
        (5, &[0]),
        (6, &[17, 0]),
        (7, &[2, 0, 0]),
        (8, &[0, 0, 0]),
        (9, &[]),
        (9, &[2]),
    ];
    for (number, words) in cases {
        let mut sheet = example();
        *records(&mut sheet)[number] = words.to_vec();
        assert_eq!(sheet.write(), Err(Refusal::Malformed), "{number} {words:?}");
        assert_eq!(listing(&spelt(&sheet)), Err(Refusal::Malformed));
    }
}

#[test]
fn ten_then_one_then_thirteen_then_nine() {
    for (retired, torn, large, refusal) in [
        (true, false, false, Refusal::Retired),
        (true, true, false, Refusal::Malformed),
        (true, true, true, Refusal::Unreadable),
        (true, false, true, Refusal::Unreadable),
        (false, true, false, Refusal::Malformed),
        (false, true, true, Refusal::Unreadable),
        (false, false, true, Refusal::Unreadable),
    ] {
        let sheet = damaged(retired, torn, large);
        assert_eq!(sheet.write(), Err(refusal));
        // the same with no room, and with a little
        let (words, ends) = laid(&sheet);
        for room in [0, 1, 66, 200] {
            let mut out = vec![b'x'; room];
            assert_eq!(write_sheet_into(&words, &ends, &mut out), Err(refusal));
            assert!(out.iter().all(|&b| b == b'x'));
        }
    }
    let (words, ends) = laid(&example());
    assert_eq!(
        write_sheet_into(&words, &ends, &mut []),
        Err(Refusal::NoRoom)
    );
    // 13 comes before a name that is declared again
    let mut sheet = damaged(true, false, false);
    sheet.names.push(7);
    assert_eq!(sheet.write(), Err(Refusal::Retired));
}

/// What is refused only when the listing is asked, by each number from 2 to 8, is written.
#[test]
fn later_refusals_do_not_prevent_writing() {
    let many: Vec<String> = (2..35).map(|n| n.to_string()).collect();
    let many = format!("0 {}", many.join(" "));
    for (refusal, lines) in [
        (
            Refusal::Duplicate,
            ["0 7 7", "0", "", "", "", "", "", "", "", "0"],
        ),
        (
            Refusal::Undeclared,
            ["0 7", "0 7 9", "", "", "", "", "", "", "", "0"],
        ),
        (Refusal::Full, [&many, "0", "", "", "", "", "", "", "", "0"]),
        (
            Refusal::NoSource,
            ["0", "0", "", "", "", "0 1", "", "", "", "0"],
        ),
        (
            Refusal::Ambiguous,
            ["0 7 9", "0", "", "", "0 7 0 9", "0 1", "", "", "", "0"],
        ),
        (
            Refusal::Mismatch,
            ["0 7", "0", "", "", "", "", "2 0", "2 0 1 1", "", "0"],
        ),
        (
            Refusal::OutOfRange,
            ["0", "0", "", "", "", "", "", "", "3 2", "0"],
        ),
    ] {
        let bytes = text(lines);
        assert_eq!(read(&bytes).write().unwrap(), bytes);
        assert_eq!(listing(&bytes), Err(refusal));
    }
}

/// Ends that are not ten, or descend, or lie past the words: there are no records, so 1 comes even before 10.
#[test]
fn bad_ends_are_refused_by_1_before_all_else() {
    for sheet in [example(), damaged(true, true, true)] {
        let (words, good) = laid(&sheet);
        let changed = |number: usize, end: usize| {
            let mut ends = good.clone();
            ends[number] = end;
            ends
        };
        for ends in [
            vec![],
            good[..9].to_vec(),
            [&good[..], &[words.len()]].concat(),
            changed(0, good[1] + 1),
            changed(4, good[3] - 1),
            changed(9, good[8] - 1),
            changed(9, words.len() + 1),
            changed(9, usize::MAX),
            changed(0, usize::MAX),
            vec![words.len() + 1; RECORDS],
        ] {
            for room in [0, WRITTEN_BYTES] {
                let mut out = vec![b'x'; room];
                assert_eq!(
                    write_sheet_into(&words, &ends, &mut out),
                    Err(Refusal::Malformed),
                    "{ends:?}"
                );
                assert!(out.iter().all(|&b| b == b'x'));
            }
        }
    }
    // with no words at all the ten records are empty, and empty is no shape of `names`
    assert_eq!(
        write_sheet_into(&[], &[0; RECORDS], &mut []),
        Err(Refusal::Malformed)
    );
}

#[test]
fn words_behind_the_last_end_are_not_looked_at() {
    let (words, ends) = laid(&example());
    for behind in [&[0][..], &[65536], &[usize::MAX; 3000]] {
        let words = [&words[..], behind].concat();
        let mut out = vec![0; WRITTEN_BYTES];
        let length = write_sheet_into(&words, &ends, &mut out).unwrap();
        assert_eq!(out[..length], text(EXAMPLE));
    }
}

/// Both are only read. Here the words behind the last end are the ends.
#[test]
fn words_and_ends_may_share_memory() {
    let words = [0, 0, 0, 1, 2, 2, 2, 2, 2, 2, 2, 2, 3];
    let mut out = vec![0; WRITTEN_BYTES];
    let length = write_sheet_into(&words, &words[3..], &mut out).unwrap();
    assert_eq!(out[..length], Sheet::new().write().unwrap());
}

#[test]
fn a_short_slice_is_left_as_it_was() {
    let (words, ends) = laid(&example());
    let text = text(EXAMPLE);
    for room in [0, 1, 65, 66, text.len() - 1] {
        let mut out = vec![b'x'; room];
        assert_eq!(
            write_sheet_into(&words, &ends, &mut out),
            Err(Refusal::NoRoom)
        );
        assert!(out.iter().all(|&b| b == b'x'));
    }
    // just enough, a byte behind it, and as much as is never measured
    for room in [
        text.len(),
        text.len() + 1,
        WRITTEN_BYTES - 1,
        WRITTEN_BYTES,
        WRITTEN_BYTES + 1,
    ] {
        let mut out = vec![b'x'; room];
        assert_eq!(write_sheet_into(&words, &ends, &mut out), Ok(text.len()));
        assert_eq!(out[..text.len()], text);
        assert!(out[text.len()..].iter().all(|&b| b == b'x'));
    }
}

// The call itself, as this crate declares it: only so can it be lent no word for the length.
extern "C" {
    fn borrows_write_sheet(
        words: *const usize,
        words_len: usize,
        ends: *const usize,
        ends_len: usize,
        out: *mut u8,
        out_len: usize,
        written: *mut usize,
        written_len: usize,
    ) -> usize;
}

/// The status, what is in `out`, and what is in `written`.
fn raw(sheet: &Sheet, room: usize, word: usize) -> (usize, Vec<u8>, Vec<usize>) {
    let (words, ends) = laid(sheet);
    let (mut out, mut written) = (vec![b'x'; room], vec![77; word]);
    // SAFETY: each pointer is that of a vector, with its length; none of the four overlaps another.
    let status = unsafe {
        borrows_write_sheet(
            words.as_ptr(),
            words.len(),
            ends.as_ptr(),
            ends.len(),
            out.as_mut_ptr(),
            out.len(),
            written.as_mut_ptr(),
            written.len(),
        )
    };
    (status, out, written)
}

#[test]
fn the_word_for_the_length_is_written_with_the_text_or_not_at_all() {
    let length = text(EXAMPLE).len();
    for room in [0, length - 1, length, WRITTEN_BYTES] {
        assert_eq!(raw(&example(), room, 0), (9, vec![b'x'; room], vec![]));
    }
    // refused before that
    for (retired, torn, large, status) in [
        (true, false, false, 13),
        (true, true, false, 1),
        (true, true, true, 10),
    ] {
        let sheet = damaged(retired, torn, large);
        for word in [0, 1] {
            assert_eq!(
                raw(&sheet, WRITTEN_BYTES, word),
                (status, vec![b'x'; WRITTEN_BYTES], vec![77; word])
            );
        }
    }
    // a byte too little, and the word for the length is as it was
    let short = (9, vec![b'x'; length - 1], vec![77]);
    assert_eq!(raw(&example(), length - 1, 1), short);
    // of two words only the first is written
    let (status, out, written) = raw(&example(), length, 2);
    assert_eq!((status, out), (0, text(EXAMPLE)));
    assert_eq!(written, [length, 77]);
}

/// A record of 1,024 words: a head, a count and so many words of five digits, 16 as often as they fit.
fn lists(head: &[usize]) -> Vec<usize> {
    let mut words = Vec::new();
    while words.len() < 1024 {
        let n = (1024 - words.len() - head.len() - 1).min(16);
        words.extend_from_slice(head);
        words.push(n);
        words.extend(vec![65535; n]);
    }
    words
}

/// Each record as long as its shape lets it be, and full of words of five digits.
#[test]
fn a_sheet_of_long_records_is_written() {
    let slice = [&[3, 3, 16][..], &[65535; 17]].concat();
    let row = [&[16, 16][..], &slice.repeat(16)].concat();
    let sheet = Sheet {
        names: [&[1023][..], &[65535; 1023]].concat(),
        bounds: [&[511][..], &[65535; 1022]].concat(),
        types: lists(&[1]),
        self_ref: vec![65535],
        steps: lists(&[2]),
        returns: lists(&[2]),
        // three rows of 16 fields, one with a single field, and 18 with none
        structs: [&row.repeat(3)[..], &[16, 1], &slice, &[0, 0].repeat(18)].concat(),
        params: [&slice.repeat(51)[..], &[3, 1, 65535, 0]].concat(),
        output: slice.repeat(2),
        force: vec![0],
    };
    for (number, record) in records(&mut sheet.clone()).into_iter().enumerate() {
        let most = [1024, 1023, 1024, 1, 1024, 1024, 1024, 1024, 40, 1];
        assert_eq!(record.len(), most[number], "{number}");
    }
    let written = sheet.write().unwrap();
    assert_eq!(written, spelt(&sheet));
    assert!(written.len() > 40_000 && written.len() <= WRITTEN_BYTES);
    // it reads again as far as the names, all of which are the same
    assert_eq!(listing(&written), Err(Refusal::Duplicate));
    // exact room, and a byte less
    let (words, ends) = laid(&sheet);
    let mut out = vec![b'x'; written.len()];
    assert_eq!(write_sheet_into(&words, &ends, &mut out), Ok(written.len()));
    assert_eq!(out, written);
    out.fill(b'x');
    out.pop();
    assert_eq!(
        write_sheet_into(&words, &ends, &mut out),
        Err(Refusal::NoRoom)
    );
    assert!(out.iter().all(|&b| b == b'x'));
    // one word more in a record of 1,024 is 1
    for number in [0, 2, 4, 5, 6, 7] {
        let mut longer = sheet.clone();
        records(&mut longer)[number].push(0);
        assert_eq!(longer.write(), Err(Refusal::Malformed));
    }
}
