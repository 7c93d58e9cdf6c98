//! Ours beside the Rust: the same sheets, from sheet bytes to listing bytes, in one process and in turns.

mod sheets;

use oracle::Oracle;
use std::hint::black_box;
use std::io::Write;
use std::time::Instant;

/// Nanoseconds of one run: ours; the Rust with its reading, inputs and printing; the supplied code of it alone.
#[derive(Clone, Copy)]
struct Times {
    ours: f64,
    rust: f64,
    library: f64,
}

struct Bench {
    oracle: Oracle,
    out: Vec<u8>,
    text: Vec<u8>,
}

fn median(mut values: Vec<f64>) -> f64 {
    values.sort_by(f64::total_cmp);
    values[values.len() / 2]
}

/// exp of the mean of the logarithms
fn geometric(values: &[f64]) -> f64 {
    (values.iter().map(|v| v.ln()).sum::<f64>() / values.len() as f64).exp()
}

impl Bench {
    fn new() -> Self {
        Bench {
            oracle: Oracle::default(),
            out: vec![0; dovrelka::LISTING_BYTES],
            text: Vec::new(),
        }
    }

    fn ours(&mut self, sheet: &[u8]) -> usize {
        dovrelka::listing_into(black_box(sheet), &mut self.out).unwrap_or(0)
    }

    fn rust(&mut self, sheet: &[u8]) {
        self.text.clear();
        self.oracle.list(black_box(sheet), &mut self.text);
        black_box(&self.text);
    }

    fn library(&mut self, sheet: &[u8]) -> u64 {
        self.text.clear();
        self.oracle
            .list_timed(black_box(sheet), &mut self.text)
            .library
    }

    /// Both listings are the same bytes; else the bench ends here.
    fn same(&mut self, name: &str, sheet: &[u8]) -> usize {
        let length = match dovrelka::listing_into(sheet, &mut self.out) {
            Ok(length) => length,
            Err(refusal) => panic!("{name}: ours refuses it, {refusal}"),
        };
        self.rust(sheet);
        assert!(
            self.text == self.out[..length],
            "{name}: the listings differ"
        );
        length
    }

    /// Rounds of ours, theirs and the parts of theirs, in turns; the median of each. A turn takes about `turn` ns: short, so
    /// that few turns are interrupted where other work runs beside.
    fn measure(&mut self, sheet: &[u8], rounds: usize, turn: f64) -> Times {
        let start = Instant::now();
        for _ in 0..3 {
            self.rust(sheet);
            self.ours(sheet);
        }
        let once = start.elapsed().as_nanos() as f64 / 6.0;
        let runs = (turn / once).ceil().max(1.0) as u64;
        let each = |start: Instant| start.elapsed().as_nanos() as f64 / runs as f64;
        let (mut ours, mut rust, mut library) = (Vec::new(), Vec::new(), Vec::new());
        for _ in 0..rounds {
            let start = Instant::now();
            for _ in 0..runs {
                black_box(self.ours(sheet));
            }
            ours.push(each(start));
            let start = Instant::now();
            for _ in 0..runs {
                self.rust(sheet);
            }
            rust.push(each(start));
            let mut sum = 0;
            for _ in 0..runs {
                sum += self.library(sheet);
            }
            library.push(sum as f64 / runs as f64);
        }
        Times {
            ours: median(ours),
            rust: median(rust),
            library: median(library),
        }
    }
}

fn line(name: &str, t: Times) {
    println!("{name} {:.0} {:.0} {:.0}", t.ours, t.rust, t.library);
}

fn everything() {
    let mut bench = Bench::new();
    println!("NAME ours-ns rust-ns library-ns");
    let mut all = Vec::new();
    for (name, sheet) in sheets::named() {
        bench.same(name, &sheet);
        let t = bench.measure(&sheet, 201, 1e5);
        line(name, t);
        all.push((name, t));
    }

    let mut random = sheets::Random(0x05ee_d5ee);
    let mut times = Vec::new();
    let mut bytes = 0;
    let mut tried = 0;
    while times.len() < 1000 {
        tried += 1;
        let sheet = sheets::random(&mut random);
        if dovrelka::listing_into(&sheet, &mut bench.out).is_err() {
            continue;
        }
        bench.same("random", &sheet);
        bytes += sheet.len();
        times.push(bench.measure(&sheet, 21, 3e4));
    }
    let of = |f: fn(&Times) -> f64| median(times.iter().map(f).collect());
    let middle = Times {
        ours: of(|t| t.ours),
        rust: of(|t| t.rust),
        library: of(|t| t.library),
    };
    line("random-1000-median", middle);

    println!("\nsummary");
    let whole: Vec<f64> = all.iter().map(|(_, t)| t.ours / t.rust).collect();
    let part: Vec<f64> = all.iter().map(|(_, t)| t.ours / t.library).collect();
    println!(
        "sheets above: ours / rust {:.3}, ours / library {:.3} (geometric means)",
        geometric(&whole),
        geometric(&part)
    );
    let worst = |f: fn(&Times) -> f64| {
        let (name, t) = all
            .iter()
            .max_by(|a, b| f(&a.1).total_cmp(&f(&b.1)))
            .unwrap();
        format!("{name} {:.3}", f(t))
    };
    println!(
        "worst of them: ours / rust {}; ours / library {}",
        worst(|t| t.ours / t.rust),
        worst(|t| t.ours / t.library)
    );
    let whole: Vec<f64> = times.iter().map(|t| t.ours / t.rust).collect();
    let part: Vec<f64> = times.iter().map(|t| t.ours / t.library).collect();
    println!(
        "random sheets ({} accepted of {tried}, {} bytes on average): ours / rust {:.3}, ours / library {:.3} (geometric means); worst {:.3}, {:.3}",
        times.len(),
        bytes / times.len(),
        geometric(&whole),
        geometric(&part),
        whole.iter().copied().fold(0.0, f64::max),
        part.iter().copied().fold(0.0, f64::max),
    );

    println!("\ngrowing sheets: what grows, how far, bytes of the sheet, bytes of the listing, ours-ns, rust-ns, library-ns");
    let mut grow = |what: &str, much: usize, sheet: Vec<u8>| {
        let length = bench.same(what, &sheet);
        let t = bench.measure(&sheet, 101, 1e5);
        println!(
            "{what} {much} {} {length} {:.0} {:.0} {:.0}",
            sheet.len(),
            t.ours,
            t.rust,
            t.library
        );
    };
    for words in [320, 500, 680, 860, 1020] {
        grow("types-words", words, sheets::types(words));
    }
    for count in [32, 64, 128, 192, 256] {
        grow("bounds", count, sheets::bounds(count));
    }
    for used in [1, 2, 4, 8, 16] {
        grow("edges", 256 * used, sheets::edges(used, 16));
    }
}

fn find(name: &str) -> Vec<u8> {
    let known = sheets::named();
    match known.iter().find(|(n, _)| *n == name) {
        Some((_, sheet)) => sheet.clone(),
        None => {
            let names: Vec<&str> = known.iter().map(|(n, _)| *n).collect();
            eprintln!("no sheet {name}; there are {}", names.join(" "));
            std::process::exit(2)
        }
    }
}

fn main() {
    let words: Vec<String> = std::env::args().skip(1).collect();
    let words: Vec<&str> = words.iter().map(String::as_str).collect();
    match words[..] {
        [] => everything(),
        ["sheet", name] => std::io::stdout().write_all(&find(name)).unwrap(),
        ["random", seed, count] => {
            let mut random = sheets::Random(seed.parse().unwrap());
            let mut left: usize = count.parse().unwrap();
            while left > 0 {
                let sheet = sheets::random(&mut random);
                if dovrelka::listing(&sheet).is_ok() {
                    std::io::stdout().write_all(&sheet).unwrap();
                    left -= 1;
                }
            }
        }
        ["ours", name, times] => {
            let sheet = find(name);
            let mut bench = Bench::new();
            for _ in 0..times.parse().unwrap() {
                black_box(bench.ours(&sheet));
            }
        }
        _ => {
            eprintln!("usage: bench/run [sheet NAME | random SEED N | ours NAME N]");
            std::process::exit(2)
        }
    }
}
