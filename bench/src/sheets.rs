//! The sheets of the bench: examples, one for each limit, growing ones, and random ones.

const NAMES: &str = "names bounds types self steps returns structs params output force\n";

/// The ten records of a sheet, as words.
#[derive(Clone, Default)]
pub struct Records {
    pub names: Vec<usize>,
    pub bounds: Vec<usize>,
    pub types: Vec<usize>,
    pub receiver: Vec<usize>,
    pub steps: Vec<usize>,
    pub returns: Vec<usize>,
    pub structs: Vec<usize>,
    pub params: Vec<usize>,
    pub output: Vec<usize>,
    pub force: Vec<usize>,
}

impl Records {
    pub fn bytes(&self) -> Vec<u8> {
        let mut text = String::from(NAMES);
        for record in [
            &self.names,
            &self.bounds,
            &self.types,
            &self.receiver,
            &self.steps,
            &self.returns,
            &self.structs,
            &self.params,
            &self.output,
            &self.force,
        ] {
            let words: Vec<String> = record.iter().map(usize::to_string).collect();
            text.push_str(&words.join(" "));
            text.push('\n');
        }
        text.into_bytes()
    }
}

/// `names` declared names 2, 3, .., none of the impl, and nothing else.
fn declared(names: usize) -> Records {
    Records {
        names: std::iter::once(0).chain(2..2 + names).collect(),
        bounds: vec![0],
        force: vec![0],
        ..Records::default()
    }
}

/// Bounds along a chain of all names, or, closed, along a circle, over and over until there are `count`.
fn along(names: usize, count: usize, closed: bool) -> Vec<usize> {
    let pairs = if closed { names } else { names - 1 };
    let mut bounds = vec![0];
    for k in 0..count {
        let at = k % pairs;
        bounds.push(2 + (at + 1) % names);
        bounds.push(2 + at);
    }
    bounds
}

/// Each name above several others, scattered.
fn dense(names: usize, count: usize) -> Vec<usize> {
    let mut bounds = vec![0];
    for k in 0..count {
        let (longer, by) = (k % names, 1 + k / names);
        bounds.push(2 + longer);
        bounds.push(2 + (longer + 7 * by) % names);
    }
    bounds
}

/// An owned opaque with path words.
fn opaque(words: impl IntoIterator<Item = usize>) -> Vec<usize> {
    let words: Vec<usize> = words.into_iter().collect();
    let mut t = vec![1, 0, words.len()];
    t.extend(words);
    t.push(0);
    t
}

/// A struct of a row.
fn record(row: usize, words: impl IntoIterator<Item = usize>) -> Vec<usize> {
    let words: Vec<usize> = words.into_iter().collect();
    let mut t = vec![2, row, words.len()];
    t.extend(words);
    t
}

/// 32 names and 32 elided lifetimes with these bounds; four opaques, and an output that uses six lifetimes.
fn sixty_four(bounds: Vec<usize>) -> Vec<u8> {
    let mut r = declared(32);
    r.bounds = bounds;
    r.steps = vec![1, 16, 0, 1, 16, 0];
    for w in [1, 9, 17, 40] {
        r.params.extend([1, 0, 0, 1, w]);
    }
    r.output = opaque([1, 5, 9, 17, 33, 64]);
    r.bytes()
}

/// All names in a circle, `used` of them used, and structs of 16 words: used edges for each word.
pub fn edges(used: usize, structs: usize) -> Vec<u8> {
    let mut r = declared(32);
    r.bounds = along(32, 32, true);
    r.structs = vec![16, 0];
    for _ in 0..structs {
        r.params.extend(record(0, 1..17));
    }
    r.output = opaque(1..1 + used.min(16));
    if used > 16 {
        r.output.extend(opaque(17..1 + used));
    }
    r.bytes()
}

/// Names in a circle, one parameter and an output: a traversal has all names. The types say nothing; they make each
/// of these sheets longer than 1,024 bytes, so that all take the same way through ours.
pub fn bounds(count: usize) -> Vec<u8> {
    let mut r = declared(32);
    r.bounds = along(32, count, true);
    r.types = vec![0; 400];
    r.params = vec![1, 0, 0, 1, 1];
    r.output = opaque([1]);
    r.bytes()
}

/// Many types, none of which implies a bound that is not there already: references to paths of one lifetime.
pub fn types(words: usize) -> Vec<u8> {
    let mut r = declared(32);
    r.bounds = along(32, 32, true);
    for k in 0..words / 5 {
        r.types.extend([2, 2 + k % 32, 1, 1, 2 + (3 * k + 1) % 32]);
    }
    r.params = vec![1, 0, 0, 1, 1];
    r.output = opaque([1]);
    r.bytes()
}

/// The longest listing: 101,353 bytes.
fn longest() -> Vec<u8> {
    let mut r = declared(32);
    r.bounds = along(32, 32, true);
    r.receiver = vec![1];
    r.steps = vec![2, 16];
    r.steps.extend([1; 16]);
    r.steps.extend([1, 16, 1, 2 + 20]);
    while r.steps.len() < 1024 {
        r.steps.extend([2, 0]);
    }
    for _ in 0..512 {
        r.returns.extend([2, 0]);
    }
    r.structs = vec![16, 0];
    // declared words wherever parameter or def has two digits, 40 words of one elided lifetime, the rest static
    let mut elided = 40;
    for param in 0..16 {
        let words: Vec<usize> = (0..16)
            .map(|def| {
                if param > 9 || def > 9 {
                    12
                } else if elided > 0 {
                    elided -= 1;
                    33
                } else {
                    0
                }
            })
            .collect();
        r.params.extend(record(0, words));
    }
    // four used lifetimes of one digit, 22 of two, and the elided one
    r.output = opaque((1..5).chain(11..23));
    r.output.extend(opaque((23..33).chain([33])));
    r.bytes()
}

/// Records as long as a sheet that is accepted can have them: 1,024 words of types, steps, returns and structs.
fn largest() -> Vec<u8> {
    let mut r = declared(32);
    r.bounds = dense(32, 256);
    for k in 0..51 {
        r.types.extend([2, 2 + k % 32, 1, 16]);
        r.types.extend((0..16).map(|i| 2 + (k + 2 * i) % 32));
    }
    r.types.extend([0; 4]);
    r.steps = vec![1, 16, 0, 1, 16, 0];
    while r.steps.len() < 1024 - 19 {
        let k = r.steps.len();
        r.steps.extend([1, 16, 16]);
        r.steps.extend((0..16).map(|i| 2 + (k + i) % 32));
    }
    if r.steps.len() % 2 == 1 {
        r.steps.extend([1, 0, 0]);
    }
    while r.steps.len() < 1024 {
        r.steps.extend([0, 2]);
    }
    while r.returns.len() < 1024 {
        r.returns.extend([0, 2 + r.returns.len() / 2 % 32]);
    }
    for row in 0..32 {
        r.structs.extend([16, 3]);
        r.structs.extend([1, 0, 12]);
        r.structs.extend((0..12).map(|i| 1 + (row + i) % 16));
        r.structs.extend([1, 1 + row % 16]);
        r.structs.extend([3, 3, 6]);
        r.structs.extend((0..6).map(|i| 1 + (row + i) % 16));
        r.structs.push(3);
        r.structs.extend([3, 1, 5]);
    }
    for p in 0..16 {
        r.params.extend([4]);
        r.params
            .extend(record(p, (0..16).map(|i| 1 + (p + 2 * i) % 32)));
    }
    r.output = opaque(1..9);
    r.output.extend(opaque(33..41));
    r.bytes()
}

/// Name and bytes of each.
pub fn named() -> Vec<(&'static str, Vec<u8>)> {
    let example = b"0 7 9\n0\n2 7 1 1 9\n\n0 7 0 9 0 1\n0 7\n\n1 0 1 2 1 1 3 1 3\n1 0 1 1 0\n0\n";
    vec![
        ("example-of-01", [NAMES.as_bytes(), example].concat()),
        (
            "example-of-readme",
            include_bytes!("../../crates/borrows/stdin").to_vec(),
        ),
        ("smallest", declared(0).bytes()),
        ("chain-64-256", sixty_four(along(32, 256, false))),
        ("circle-64-256", sixty_four(along(32, 256, true))),
        ("dense-64-256", sixty_four(dense(32, 256))),
        ("edges-4096", edges(16, 16)),
        ("types-1024-words", types(1024)),
        ("longest-listing", longest()),
        ("largest-records", largest()),
    ]
}

// ---- random sheets

/// splitmix64
pub struct Random(pub u64);

impl Random {
    fn below(&mut self, n: usize) -> usize {
        self.0 = self.0.wrapping_add(0x9e37_79b9_7f4a_7c15);
        let mut z = self.0;
        z = (z ^ (z >> 30)).wrapping_mul(0xbf58_476d_1ce4_e5b9);
        z = (z ^ (z >> 27)).wrapping_mul(0x94d0_49bb_1331_11eb);
        ((z ^ (z >> 31)) % n as u64) as usize
    }

    fn one_in(&mut self, n: usize) -> bool {
        self.below(n) == 0
    }

    fn of(&mut self, words: &[usize]) -> usize {
        words[self.below(words.len())]
    }
}

/// A declared lifetime word: mostly a name.
fn lifetime(random: &mut Random, names: &[usize]) -> usize {
    match random.below(8) {
        0 => 0,
        1 => 1,
        _ if names.is_empty() => random.below(2),
        _ => random.of(names),
    }
}

fn ast_type(random: &mut Random, names: &[usize], nesting: usize, out: &mut Vec<usize>) {
    match random.below(if nesting == 0 { 3 } else { 7 }) {
        0 => out.push(0),
        1 | 2 => {
            let n = random.below(4);
            out.extend([1, n]);
            for _ in 0..n {
                let l = lifetime(random, names);
                out.push(l);
            }
        }
        3 | 4 => {
            let l = lifetime(random, names);
            out.extend([2, l]);
            ast_type(random, names, nesting - 1, out);
        }
        5 => {
            out.push(3);
            ast_type(random, names, nesting - 1, out);
        }
        _ => {
            out.push(4);
            ast_type(random, names, nesting - 1, out);
            ast_type(random, names, nesting - 1, out);
        }
    }
}

fn steps(random: &mut Random, names: &[usize], most: usize) -> Vec<usize> {
    let mut out = Vec::new();
    for _ in 0..random.below(most + 1) {
        match random.below(6) {
            0..=2 => {
                let l = lifetime(random, names);
                out.extend([0, l]);
            }
            3 | 4 => {
                let n = random.below(4);
                out.extend([1, n + random.below(2), n]);
                for _ in 0..n {
                    let l = lifetime(random, names);
                    out.push(l);
                }
            }
            _ => {
                let n = random.below(3);
                out.extend([2, n]);
                for _ in 0..n {
                    let l = lifetime(random, names);
                    out.push(l);
                }
            }
        }
    }
    out
}

/// A lowered type over words up to `most`; structs of the rows whose lifetimes are given.
fn lowered(random: &mut Random, rows: &[usize], most: usize, option: bool, out: &mut Vec<usize>) {
    match random.below(if option { 10 } else { 9 }) {
        0 => out.push(0),
        1..=3 => {
            let n = random.below(3);
            out.extend([1, random.below(2), n]);
            for _ in 0..n {
                out.push(random.below(most + 1));
            }
            if random.one_in(3) {
                out.push(0);
            } else {
                out.extend([1, random.below(most + 1)]);
            }
        }
        4..=6 if !rows.is_empty() => {
            let row = random.below(rows.len());
            out.extend([2, row, rows[row]]);
            for _ in 0..rows[row] {
                out.push(random.below(most + 1));
            }
        }
        9 => {
            out.push(4);
            lowered(random, rows, most, false, out);
        }
        _ => match random.below(6) {
            0 => out.extend([3, 0]),
            1..=3 => out.extend([3, 1, random.below(most + 1)]),
            4 => {
                let n = random.below(3);
                out.extend([3, 3, n]);
                for _ in 0..=n {
                    out.push(random.below(most + 1));
                }
            }
            _ => out.extend([3, 1, 0]),
        },
    }
}

/// A sheet of the size of a method; it may be refused.
pub fn random(random: &mut Random) -> Vec<u8> {
    let count = random.below(7);
    let mut names: Vec<usize> = Vec::new();
    while names.len() < count {
        let name = 2 + random.below(60);
        if !names.contains(&name) {
            names.push(name);
        }
    }
    let of_impl = random.below(count + 1);
    let mut r = Records::default();
    r.names.push(of_impl);
    r.names.extend(&names);
    let impl_bounds = if of_impl > 0 { random.below(3) } else { 0 };
    r.bounds.push(impl_bounds);
    for _ in 0..2 * impl_bounds {
        r.bounds.push(names[random.below(of_impl)]);
    }
    if count > 0 {
        for _ in 0..2 * random.below(count + 1) {
            let name = random.of(&names);
            r.bounds.push(name);
        }
    }
    for _ in 0..random.below(6) {
        ast_type(random, &names, 3, &mut r.types);
    }
    if random.one_in(2) {
        let l = lifetime(random, &names);
        r.receiver.push(l);
    }
    r.steps = steps(random, &names, 8);
    r.returns = steps(random, &names, 3);
    let mut rows = Vec::new();
    for _ in 0..random.below(4) {
        let d = random.below(4);
        let fields = random.below(4);
        r.structs.extend([d, fields]);
        for _ in 0..fields {
            lowered(random, &rows, d, true, &mut r.structs);
        }
        rows.push(d);
    }
    for _ in 0..random.below(9) {
        lowered(random, &rows, count + 2, true, &mut r.params);
    }
    for _ in 0..random.below(3) {
        lowered(random, &rows, count, true, &mut r.output);
    }
    r.force.push(0);
    r.bytes()
}
