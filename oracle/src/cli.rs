//! The program's command line: one sheet or many, one command, each answer to standard output or to a file.

use crate::hir::driver::{
    self, Clock, Direction, Engine, Forms, NoClock, Out, PhaseClock, Sheet, PHASES,
};
use std::cell::RefCell;
use std::io::{Read, Write};
use std::panic::{catch_unwind, AssertUnwindSafe};

const USAGE: &str = "\
usage: oracle [COMMAND] [OPTION...] [FILE...]
commands:
  list             the listing of 01 (default)
  shorter          the listing with all_shorter_lifetimes in its second block
  ast              AST longer_than and shorter_than of every declared name
  bounds           the environment's bound lists, in push order
  fields           compute_for_struct_field of every row and struct field
  visits 3,0,0,2   visits in that order with carried pairs; then the edges in push order
  bench N FILE...  nanoseconds for a run from sheet bytes to listing bytes, N runs; then N more
                   runs that show where they go
options:
  --variant N      the forms that the sheet leaves open, chosen by N (0: always the first)
  --hand N,C,l,s.. an environment made by hand in place of the sheet's: N declared, C in all, and
                   pairs longer, shorter, all by number
  --out DIR        one file DIR/NAME.out for each FILE, in place of standard output
  --stream         standard input holds many sheets, each of 11 lines
One sheet is read from standard input if there is no FILE. With several sheets on standard output,
each output is followed by a line with a dot.";

thread_local! {
    static LAST_PANIC: RefCell<String> = const { RefCell::new(String::new()) };
}

#[derive(Clone)]
enum Command {
    List(Direction),
    Ast,
    Bounds,
    Fields,
    Visits(Vec<usize>),
    Bench(u64),
}

fn compute(engine: &mut Engine, cmd: &Command, forms: &Forms, text: &[u8], out: &mut Out) {
    let sheet = Sheet::read(text);
    let forms = &mut forms.clone();
    match cmd {
        Command::List(dir) => driver::listing(engine, &sheet, forms, *dir, out, &mut NoClock),
        Command::Ast => driver::ast_lists(&sheet, forms, out),
        Command::Bounds => driver::bounds(engine, &sheet, forms, out),
        Command::Fields => driver::fields(engine, &sheet, forms, out),
        Command::Visits(order) => driver::visits(engine, &sheet, forms, order, out),
        Command::Bench(_) => unreachable!(),
    }
}

/// What is printed for one sheet: the answer, or the line `panic` and a line with its message and place.
fn run(engine: &mut Engine, cmd: &Command, forms: &Forms, text: &[u8]) -> Vec<u8> {
    let result = catch_unwind(AssertUnwindSafe(|| {
        let mut out = Out(Vec::new());
        compute(engine, cmd, forms, text, &mut out);
        out.0
    }));
    result.unwrap_or_else(|_| {
        let message = LAST_PANIC.with(|p| p.borrow().replace('\n', " "));
        format!("panic\n{message}\n").into_bytes()
    })
}

/// One run of the bench, from sheet bytes to listing bytes.
fn bench_run(engine: &mut Engine, forms: &Forms, text: &[u8], clock: &mut impl Clock) {
    let sheet = Sheet::read(std::hint::black_box(text));
    let mut out = Out(Vec::new());
    let forms = &mut forms.clone();
    driver::listing(engine, &sheet, forms, Direction::Longer, &mut out, clock);
    std::hint::black_box(out.0);
}

fn fail(message: &str) -> ! {
    eprintln!("oracle: {message}\n{USAGE}");
    std::process::exit(2)
}

pub fn main() -> i32 {
    std::panic::set_hook(Box::new(|info| {
        let s = info.payload_as_str().unwrap_or("(no message)").to_owned();
        let at = info
            .location()
            .map(|l| format!(" ({}:{})", l.file(), l.line()))
            .unwrap_or_default();
        LAST_PANIC.with(|p| *p.borrow_mut() = s + &at);
    }));

    let mut args = std::env::args().skip(1).peekable();
    let mut cmd = Command::List(Direction::Longer);
    let word = args.peek().cloned().unwrap_or_default();
    let known = match word.as_str() {
        "list" => true,
        "shorter" => {
            cmd = Command::List(Direction::Shorter);
            true
        }
        "ast" => {
            cmd = Command::Ast;
            true
        }
        "bounds" => {
            cmd = Command::Bounds;
            true
        }
        "fields" => {
            cmd = Command::Fields;
            true
        }
        "visits" => {
            args.next();
            let order = args.peek().cloned().unwrap_or_default();
            let order = order.split(',').filter(|s| !s.is_empty());
            let order: Result<Vec<usize>, _> = order.map(str::parse).collect();
            cmd = Command::Visits(order.unwrap_or_else(|_| fail("visits: not a list of numbers")));
            true
        }
        "bench" => {
            args.next();
            let n = args.peek().and_then(|s| s.parse().ok());
            cmd = Command::Bench(n.unwrap_or_else(|| fail("bench: how many runs?")));
            true
        }
        _ => false,
    };
    if known {
        args.next();
    }

    let mut files = Vec::new();
    let mut dir = None;
    let mut stream = false;
    let mut forms = Forms::new(0);
    let mut hand = None;
    while let Some(a) = args.next() {
        match a.as_str() {
            "--variant" => {
                let n = args.next().and_then(|s| s.parse().ok());
                forms = Forms::new(n.unwrap_or_else(|| fail("--variant: which?")));
            }
            "--hand" => {
                let list = args.next().unwrap_or_else(|| fail("--hand: which?"));
                let list: Result<Vec<usize>, _> = list.split(',').map(str::parse).collect();
                hand = Some(list.unwrap_or_else(|_| fail("--hand: not a list of numbers")));
            }
            "--out" => dir = Some(args.next().unwrap_or_else(|| fail("--out: where?"))),
            "--stream" => stream = true,
            "--help" | "-h" => {
                println!("{USAGE}");
                return 0;
            }
            s if s.starts_with('-') => fail(&format!("unknown option {s}")),
            _ => files.push(a),
        }
    }

    let mut engine = Engine::new();
    engine.hand = hand;
    let mut stdout = std::io::BufWriter::new(std::io::stdout().lock());

    if let Command::Bench(n) = cmd {
        let list = Command::List(Direction::Longer);
        for file in &files {
            let text = std::fs::read(file).unwrap_or_else(|e| fail(&format!("{file}: {e}")));
            if run(&mut engine, &list, &forms, &text).starts_with(b"panic\n") {
                fail(&format!("{file}: panics"));
            }
            // whole runs, without a clock inside
            let start = std::time::Instant::now();
            for _ in 0..n {
                bench_run(&mut engine, &forms, &text, &mut NoClock);
            }
            let ns = start.elapsed().as_nanos() as f64 / n.max(1) as f64;
            // then runs with one, for the parts
            let mut clock = PhaseClock {
                last: std::time::Instant::now(),
                ns: [0; 4],
            };
            for _ in 0..n {
                clock.last = std::time::Instant::now();
                bench_run(&mut engine, &forms, &text, &mut clock);
            }
            write!(stdout, "{file}: {ns:.0} ns/run, {n} runs;").unwrap();
            for (phase, ns) in PHASES.iter().zip(clock.ns) {
                write!(stdout, " {phase} {:.0}", ns as f64 / n.max(1) as f64).unwrap();
            }
            writeln!(stdout).unwrap();
        }
        return 0;
    }

    if files.is_empty() {
        let mut text = Vec::new();
        std::io::stdin().read_to_end(&mut text).unwrap();
        if !stream {
            stdout
                .write_all(&run(&mut engine, &cmd, &forms, &text))
                .unwrap();
            return 0;
        }
        let mut start = 0;
        let mut lines = 0;
        for i in 0..text.len() {
            if text[i] == b'\n' {
                lines += 1;
                if lines == 11 {
                    let o = run(&mut engine, &cmd, &forms, &text[start..=i]);
                    stdout.write_all(&o).unwrap();
                    stdout.write_all(b".\n").unwrap();
                    start = i + 1;
                    lines = 0;
                }
            }
        }
        if start != text.len() {
            eprintln!("oracle: the last sheet of the stream is cut off");
            return 1;
        }
        return 0;
    }

    for file in &files {
        let text = std::fs::read(file).unwrap_or_else(|e| fail(&format!("{file}: {e}")));
        let o = run(&mut engine, &cmd, &forms, &text);
        match &dir {
            Some(dir) => {
                let name = std::path::Path::new(file).file_name().unwrap();
                let mut name = name.to_owned();
                name.push(".out");
                let at = std::path::Path::new(dir).join(name);
                std::fs::write(&at, o).unwrap_or_else(|e| fail(&format!("{}: {e}", at.display())));
            }
            None => {
                stdout.write_all(&o).unwrap();
                if files.len() > 1 {
                    stdout.write_all(b".\n").unwrap();
                }
            }
        }
    }
    0
}
