//! `listing` and `borrows` on sheets: 01's example, the README's, a refusal of each number, and what a refusal leaves.

use dovrelka::{
    borrows, borrows_into, listing, listing_into, Answer, Edge, Kind, Refusal, EDGES, STACK, USED,
    WORDS_PER_EDGE,
};

const NAMES: &str = "names bounds types self steps returns structs params output force";

/// A sheet's bytes from its ten records.
fn sheet(records: [&str; 10]) -> Vec<u8> {
    let mut text = String::from(NAMES);
    for record in records {
        text.push('\n');
        text.push_str(record);
    }
    text.push('\n');
    text.into_bytes()
}

/// 01's example.
fn example() -> Vec<u8> {
    sheet([
        "0 7 9",
        "0",
        "2 7 1 1 9",
        "",
        "0 7 0 9 0 1",
        "0 7",
        "",
        "1 0 1 2 1 1 3 1 3",
        "1 0 1 1 0",
        "0",
    ])
}

/// 32 names in a circle, all of them used, and `structs` structs of 16 lifetimes: 512 edges for each.
fn circle(structs: usize) -> Vec<u8> {
    let words = |numbers: &mut dyn Iterator<Item = usize>| {
        numbers.map(|n| n.to_string()).collect::<Vec<_>>().join(" ")
    };
    let names = words(&mut std::iter::once(0).chain(2..34));
    let bounds = words(
        &mut std::iter::once(0).chain((2..34).flat_map(|n| [n, if n == 33 { 2 } else { n + 1 }])),
    );
    let row = "16 0".to_string();
    let param = format!("2 0 16 {}", words(&mut (1..17)));
    let output = format!(
        "1 0 16 {} 0 1 0 16 {} 0",
        words(&mut (1..17)),
        words(&mut (17..33))
    );
    let params = vec![param; structs].join(" ");
    sheet([&names, &bounds, "", "", "", "", &row, &params, &output, "0"])
}

#[test]
fn the_example_of_the_paper() {
    let text = "lifetimes used params edges\n3 1 2 1\nlowered\n\n1 2 3\n1\nlifetime longer\n0 0 1\n1 1\n2 2\n\
                param answer\n0 4\n1 1\nused param kind def option\n0 0 1 0 0\n";
    assert_eq!(listing(&example()).unwrap(), text.as_bytes());
    let found = borrows(&example()).unwrap();
    assert_eq!(found.used, [0]);
    assert_eq!(
        found.answers,
        [Answer::BorrowedOpaque, Answer::TemporarySlice]
    );
    assert_eq!(
        found.edges,
        [Edge {
            used: 0,
            param: 0,
            kind: Kind::Opaque,
            def: 0,
            option: false
        }]
    );
}

#[test]
fn the_example_of_the_readme() {
    let bytes = include_bytes!("../../crates/borrows/stdin");
    let text = include_bytes!("../../crates/borrows/stdout");
    assert_eq!(listing(bytes).unwrap(), text);
    // the edges are the listing's last lines
    let found = borrows(bytes).unwrap();
    let lines: String = found
        .edges
        .iter()
        .map(|e| {
            format!(
                "{} {} {} {} {}\n",
                e.used,
                e.param,
                e.kind as usize,
                e.def,
                usize::from(e.option)
            )
        })
        .collect();
    assert!(text.ends_with(lines.as_bytes()));
    assert_eq!(
        (found.used.len(), found.answers.len(), found.edges.len()),
        (3, 8, 27)
    );
}

#[test]
fn each_refusal() {
    let many: Vec<String> = (2..35).map(|n| n.to_string()).collect();
    let many = format!("0 {}", many.join(" "));
    let cases = [
        (
            Refusal::Malformed,
            sheet(["1", "0", "", "", "", "", "", "", "", "0"]),
        ),
        (
            Refusal::Duplicate,
            sheet(["0 7 7", "0", "", "", "", "", "", "", "", "0"]),
        ),
        (
            Refusal::Undeclared,
            sheet(["0 7", "0 7 9", "", "", "", "", "", "", "", "0"]),
        ),
        (
            Refusal::Full,
            sheet([&many, "0", "", "", "", "", "", "", "", "0"]),
        ),
        (
            Refusal::NoSource,
            sheet(["0", "0", "", "", "", "0 1", "", "", "", "0"]),
        ),
        (
            Refusal::Ambiguous,
            sheet(["0 7", "0", "", "", "0 7 0 7", "0 1", "", "", "", "0"]),
        ),
        (
            Refusal::Mismatch,
            sheet(["0 7", "0", "", "", "", "", "2 0", "2 0 1 1", "", "0"]),
        ),
        (
            Refusal::OutOfRange,
            sheet(["0", "0", "", "", "", "", "", "", "3 2", "0"]),
        ),
        (Refusal::Unreadable, Vec::new()),
        (Refusal::Unreadable, b"names\n".to_vec()),
        // retired before a name declared again, and behind a record that is not in its shape
        (
            Refusal::Retired,
            sheet(["0 7 7", "0", "", "", "", "", "", "", "", "1"]),
        ),
        (
            Refusal::Malformed,
            sheet(["0 1", "0", "", "", "", "", "", "", "", "1"]),
        ),
        (
            Refusal::Malformed,
            sheet(["0 7", "0", "", "", "", "", "", "", "", "2"]),
        ),
    ];
    for (refusal, bytes) in cases {
        assert_eq!(listing(&bytes), Err(refusal));
        assert_eq!(borrows(&bytes), Err(refusal));
        assert!(!matches!(refusal, Refusal::Unknown { .. }));
    }
}

#[test]
fn a_listing_has_4096_edges_at_most() {
    assert_eq!(borrows(&circle(8)).unwrap().edges.len(), 4096);
    let text = listing(&circle(8)).unwrap();
    assert!(text.starts_with(b"lifetimes used params edges\n32 32 8 4096\n"));
    assert_eq!(borrows(&circle(9)).unwrap().edges.len(), 4608);
    assert_eq!(listing(&circle(9)), Err(Refusal::NoRoom));
    assert_eq!(borrows(&circle(16)).unwrap().edges.len(), 8192);
}

/// 64 lifetimes of which two output types use as many as they can, with the parameters that `circle` has.
#[test]
fn a_sheet_uses_34_lifetimes_at_most() {
    let mut lines: Vec<String> = String::from_utf8(circle(16))
        .unwrap()
        .lines()
        .map(str::to_string)
        .collect();
    let words: Vec<String> = (1..=34).map(|n| n.to_string()).collect();
    lines[5] = "1 16 0 1 16 0".to_string(); // steps: 32 elided lifetimes
    lines[9] = format!(
        "3 3 16 {} 3 3 16 {}",
        words[..17].join(" "),
        words[17..].join(" ")
    );
    let bytes = (lines.join("\n") + "\n").into_bytes();
    let found = borrows(&bytes).unwrap();
    assert_eq!(found.used, (0..34).collect::<Vec<_>>());
    assert_eq!(found.used.len(), USED);
    assert_eq!(found.edges.len(), 8192);
    assert!(found.edges.len() <= EDGES);
}

#[test]
fn a_short_slice_is_left_as_it_was() {
    let bytes = include_bytes!("../../crates/borrows/stdin");
    let text = include_bytes!("../../crates/borrows/stdout");
    for room in [0, 1, text.len() - 1] {
        let mut out = vec![b'x'; room];
        assert_eq!(listing_into(bytes, &mut out), Err(Refusal::NoRoom));
        assert!(out.iter().all(|&b| b == b'x'));
    }
    // just enough, and a byte behind it
    let mut out = vec![b'x'; text.len() + 1];
    assert_eq!(listing_into(bytes, &mut out), Ok(text.len()));
    assert_eq!(&out[..text.len()], text);
    assert_eq!(out[text.len()], b'x');
}

#[test]
fn short_words_are_left_as_they_were() {
    let bytes = include_bytes!("../../crates/borrows/stdin");
    // three used lifetimes, 8 answers, 27 edges, three counts: each one word short in turn, then just enough
    let enough = [3, 8, 27 * WORDS_PER_EDGE, 3];
    for short in 0..5 {
        let mut slices: Vec<Vec<usize>> = enough
            .iter()
            .enumerate()
            .map(|(i, &n)| vec![77; if i == short { n - 1 } else { n }])
            .collect();
        let [used, answers, edges, counts] = &mut slices[..] else {
            unreachable!()
        };
        let answer = borrows_into(bytes, used, answers, edges, counts);
        if short < 4 {
            assert_eq!(answer, Err(Refusal::NoRoom));
            assert!(slices.iter().flatten().all(|&w| w == 77));
        } else {
            assert_eq!(answer, Ok(()));
            assert_eq!(slices[3], [3, 8, 27]);
        }
    }
    // a sheet's own refusal comes first
    let torn = sheet(["1", "0", "", "", "", "", "", "", "", "0"]);
    assert_eq!(
        borrows_into(&torn, &mut [], &mut [], &mut [], &mut []),
        Err(Refusal::Malformed)
    );
    assert_eq!(listing_into(&torn, &mut []), Err(Refusal::Malformed));
}

/// What runs in a thread with so many bytes of stack; one that has too few ends the whole test.
fn with_stack<T: Send>(bytes: usize, run: impl FnOnce() -> T + Send) -> T {
    std::thread::scope(|scope| {
        std::thread::Builder::new()
            .stack_size(bytes)
            .spawn_scoped(scope, run)
            .unwrap()
            .join()
            .unwrap()
    })
}

#[test]
fn a_call_takes_less_stack_than_the_constant_says() {
    // as many edges as a listing may have, and more than 4,096 bytes: the largest scratch
    let mut lines: Vec<String> = String::from_utf8(circle(8))
        .unwrap()
        .lines()
        .map(str::to_string)
        .collect();
    lines[3] = vec!["0"; 1024].join(" "); // types
    lines[5] = vec!["2 0"; 512].join(" "); // steps
    let many = (lines.join("\n") + "\n").into_bytes();
    assert!(many.len() > 4096);
    let found = with_stack(STACK, || (listing(&many).unwrap(), borrows(&many).unwrap()));
    assert!(found.0.ends_with(b"\n31 7 3 15 0\n"));
    assert_eq!(found.1.edges.len(), 4096);
}

#[test]
fn a_short_sheet_takes_little_stack() {
    let bytes = example();
    assert!(bytes.len() <= 256);
    let found = with_stack(64 * 1024, || listing(&bytes).unwrap());
    assert!(found.ends_with(b"\n0 0 1 0 0\n"));
}
