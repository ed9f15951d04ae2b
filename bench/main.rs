//! Equal lists, counts and times: the library against plain Rust. See `run`.
mod library;
mod plain;
use plain::{Channels, Question};
use std::hint::black_box;

/// The processor time of this thread, in nanoseconds: what else the machine does counts little.
fn now() -> f64 {
    #[repr(C)]
    struct Time {
        seconds: i64,
        nanoseconds: i64,
    }
    unsafe extern "C" {
        fn clock_gettime(clock: i32, time: *mut Time) -> i32;
    }
    let mut time = Time { seconds: 0, nanoseconds: 0 };
    assert_eq!(unsafe { clock_gettime(3, &mut time) }, 0);
    time.seconds as f64 * 1e9 + time.nanoseconds as f64
}

struct Random(u64);

impl Random {
    fn next(&mut self) -> u64 {
        self.0 ^= self.0 << 13;
        self.0 ^= self.0 >> 7;
        self.0 ^= self.0 << 17;
        self.0
    }

    fn below(&mut self, n: u64) -> u64 {
        (self.next() >> 11) % n
    }
}

/// How the patches lie: 32 clusters, within so much of the centre in each byte; or anywhere.
#[derive(Clone, Copy)]
struct Kind {
    name: &'static str,
    spread: Option<u64>,
}

const KINDS: [Kind; 3] = [
    Kind { name: "tight", spread: Some(2) },
    Kind { name: "loose", spread: Some(24) },
    Kind { name: "none", spread: None },
];
const AGGREGATES: [&str; 3] = ["sum", "greatest", "least"];

fn channels(wide: bool) -> Channels {
    if wide { Channels::new(&[256; 8]) } else { Channels::new(&[4, 4, 2, 2]) }
}

struct Data {
    random: Random,
    kind: Kind,
    centres: Vec<Vec<u8>>,
    bytes: usize,
}

impl Data {
    fn new(kind: Kind, bytes: usize) -> Data {
        let mut random = Random(0x9E37_79B9_7F4A_7C15);
        let centres = (0..32).map(|_| (0..bytes).map(|_| random.next() as u8).collect()).collect();
        Data { random, kind, centres, bytes }
    }

    fn patch(&mut self) -> Vec<u8> {
        let at = self.random.below(32) as usize;
        let random = &mut self.random;
        match self.kind.spread {
            Some(spread) => self.centres[at].iter().map(|x| x.wrapping_add(random.below(2 * spread + 1) as u8).wrapping_sub(spread as u8)).collect(),
            None => (0..self.bytes).map(|_| random.next() as u8).collect(),
        }
    }
}

fn number(i: usize) -> u16 {
    (i * 7 + 3) as u16
}

/// The same index on both sides: pivots are spread over the patches.
struct Both {
    library: library::Index,
    plain: plain::Index,
}

fn serve_all(index: &mut library::Index, commands: &[u8], n: usize) {
    let mut answers = vec![0; 2 * n];
    assert_eq!(index.serve(commands, &mut answers), 2 * n);
    assert!(answers.chunks(2).all(|a| a[1] == 0));
}

fn build(data: &mut Data, wide: bool, n: usize) -> Both {
    let channels = channels(wide);
    let m = channels.widths.len();
    let mut library = library::Index::new(wide, n as u16);
    let mut plain = plain::Index::new(channels);
    let mut commands = vec![];
    for i in 0..n {
        let rows = data.patch();
        library::insert(&mut commands, number(i), &rows);
        assert!(plain.insert(number(i), &rows));
    }
    for c in 0..m {
        for p in 0..8 {
            let accession = number((p * 8 + c) * n / 64);
            library::add_pivot(&mut commands, c as u8, accession);
            assert!(plain.add_pivot(c, accession));
        }
    }
    serve_all(&mut library, &commands, n + 8 * m);
    Both { library, plain }
}

fn questions(data: &mut Data, m: usize, count: usize, aggregate: u8, k: u16) -> Vec<Question> {
    (0..count)
        .map(|_| {
            let rows = data.patch();
            let weights = (0..m).map(|_| 1 + data.random.below(8) as u8).collect();
            Question { rows, weights, aggregate, k, radius: u32::MAX }
        })
        .collect()
}

/// Distances measured, on average.
#[derive(Default)]
struct Counts {
    library: f64,
    whole: f64,
    scan: f64,
    admitted: f64,
}

/// Checks each list against the full scan; counts distances. A second round has a radius that cuts the list.
fn check(both: &mut Both, questions: &mut [Question], title: &str) -> Counts {
    let mut counts = Counts::default();
    for round in 0..2 {
        let mut commands = vec![];
        for q in questions.iter() {
            library::search(&mut commands, q);
        }
        let mut bytes = vec![0; questions.iter().map(|q| 12 + 6 * q.k as usize).sum()];
        let len = both.library.serve(&commands, &mut bytes);
        let answers = library::answers(&bytes[..len]);
        assert_eq!(answers.len(), questions.len());
        for (i, (a, q)) in answers.iter().zip(questions.iter_mut()).enumerate() {
            let scan = both.plain.scan(q);
            let refine = both.plain.refine(q);
            let whole = both.plain.whole(q);
            let same = a.complete && a.hits == scan.hits && refine.hits == scan.hits && whole.hits == scan.hits;
            if !same || a.measured != refine.measured || a.admitted as usize != refine.admitted {
                eprintln!("{title}, query {i}: the lists or the counts differ");
                std::process::exit(1);
            }
            if round == 0 {
                let n = answers.len() as f64;
                counts.library += a.measured as f64 / n;
                counts.whole += whole.measured as f64 / n;
                counts.scan += scan.measured as f64 / n;
                counts.admitted += a.admitted as f64 / n;
                q.radius = scan.hits.last().map_or(0, |h| h.0 - h.0.min(1));
            } else {
                q.radius = u32::MAX;
            }
        }
    }
    counts
}

/// The best of several rounds of each form, in nanoseconds, the forms taking turns.
fn race(rounds: usize, forms: &mut [&mut dyn FnMut() -> u64]) -> Vec<f64> {
    let mut best = vec![f64::MAX; forms.len()];
    for _ in 0..rounds {
        for (form, best) in forms.iter_mut().zip(best.iter_mut()) {
            let start = now();
            black_box(form());
            *best = best.min(now() - start);
        }
    }
    best
}

/// Nanoseconds a query: library, the same rule in Rust, full scan in Rust.
fn times(both: &mut Both, questions: &[Question], rounds: usize) -> [f64; 3] {
    let mut commands = vec![];
    for q in questions {
        library::search(&mut commands, q);
    }
    let mut bytes = vec![0; questions.iter().map(|q| 12 + 6 * q.k as usize).sum()];
    let Both { library, plain } = both;
    let best = race(
        rounds,
        &mut [
            &mut || library.serve(&commands, &mut bytes) as u64,
            &mut || questions.iter().map(|q| plain.refine(q).measured as u64).sum(),
            &mut || questions.iter().map(|q| plain.scan(q).hits.len() as u64).sum(),
        ],
    );
    [0, 1, 2].map(|i| best[i] / questions.len() as f64)
}

fn set_name(wide: bool) -> &'static str {
    if wide { "8 x 256" } else { "4 x 2..4" }
}

fn header() {
    println!("| data | channels | patches | k | aggregate | admitted | measured | whole | full scan | library us | rule in Rust us | scan in Rust us | library / rule | library / scan |");
    println!("|---|---|---|---|---|---|---|---|---|---|---|---|---|---|");
}

fn row(kind: Kind, wide: bool, n: usize, k: u16, aggregate: usize, counts: &Counts, t: [f64; 3]) {
    println!(
        "| {} | {} | {} | {} | {} | {:.0} | {:.1} | {:.1} | {:.0} | {:.2} | {:.2} | {:.2} | {:.2} | {:.3} |",
        kind.name, set_name(wide), n, k, AGGREGATES[aggregate], counts.admitted, counts.library, counts.whole, counts.scan,
        t[0] / 1e3, t[1] / 1e3, t[2] / 1e3, t[0] / t[1], t[0] / t[2]
    );
}

/// Lists, counts and times of every kind of data, size, k and aggregate.
fn searches(quick: bool) {
    if !quick {
        header();
    }
    let mut lists = 0;
    let mut growth = vec![];
    for wide in [false, true] {
        for kind in KINDS {
            for n in [64, 512, 4096] {
                let mut data = Data::new(kind, channels(wide).bytes);
                let mut both = build(&mut data, wide, n);
                for k in [1, 5, 50] {
                    for aggregate in 0..3 {
                        let count = if !wide { 32 } else if n == 4096 { if quick { 2 } else { 8 } } else { 8 };
                        let mut qs = questions(&mut data, channels(wide).widths.len(), count, aggregate as u8, k);
                        let title = format!("{} {} {n} k {k} {}", kind.name, set_name(wide), AGGREGATES[aggregate]);
                        let counts = check(&mut both, &mut qs, &title);
                        lists += 2 * count;
                        let shown = aggregate == 0 && (k == 5 || n == 4096) || k == 5 && n == 4096;
                        if !quick && shown {
                            let t = times(&mut both, &qs, if n == 4096 { 5 } else { 20 });
                            row(kind, wide, n, k, aggregate, &counts, t);
                            if k == 5 && aggregate == 0 {
                                growth.push((kind, wide, n, t));
                            }
                        }
                    }
                }
            }
        }
    }
    println!();
    println!("{lists} lists: each equals the full scan's, and counts what the rule counts.");
    if quick {
        return;
    }
    println!();
    println!("Growth with the number of patches, k 5, sum: time a query at n patches, as a multiple of that at 64.");
    println!();
    println!("| data | channels | patches | library | rule in Rust | scan in Rust |");
    println!("|---|---|---|---|---|---|");
    let mut first = [0.0; 3];
    for (kind, wide, n, t) in growth {
        if n == 64 {
            first = t;
        }
        println!("| {} | {} | {} | {:.1} | {:.1} | {:.1} |", kind.name, set_name(wide), n, t[0] / first[0], t[1] / first[1], t[2] / first[2]);
    }
}

/// The case that the targets speak of: 4,096 patches, eight channels of 256 bytes, eight pivots, k 5.
fn headline() {
    println!();
    println!("Clustered data, 4,096 patches, 8 x 256 bytes, 8 pivots a channel, k 5.");
    println!();
    header();
    for kind in &KINDS[..2] {
        let mut data = Data::new(*kind, 2048);
        let mut both = build(&mut data, true, 4096);
        let mut qs = questions(&mut data, 8, 64, 0, 5);
        let counts = check(&mut both, &mut qs, kind.name);
        let t = times(&mut both, &qs, 15);
        row(*kind, true, 4096, 5, 0, &counts, t);
    }
}

/// What no search can do without: reading every stored distance once, 4,096 x 8 x 16 bytes.
fn reading() {
    let words: Vec<u64> = (0..65536).collect();
    let best = race(200, &mut [&mut || black_box(&words).iter().fold(0, |a, x| a ^ x)]);
    println!();
    println!("Reading the stored distances once, and no more: {:.1} us.", best[0] / 1e3);
}

/// Each built metric against its plain loop.
fn metrics() {
    println!();
    println!("One distance, in nanoseconds.");
    println!();
    println!("| metric | width | library | Rust | ratio |");
    println!("|---|---|---|---|---|");
    let names = ["city block", "Hamming", "circular", "Chebyshev"];
    let loops = [plain::city_block, plain::hamming, plain::circular, plain::chebyshev];
    let mut random = Random(7);
    let rows: Vec<u8> = (0..64 * 256).map(|_| random.next() as u8).collect();
    for metric in 0..4 {
        for width in [4, 32, 64, 256] {
            let (call, asked) = (black_box(loops[metric]), black_box(library::metric(metric)));
            let pairs: Vec<(&[u8], &[u8])> = (0..64).map(|i| (&rows[i * 256..][..width], &rows[(i * 5 % 64) * 256..][..width])).collect();
            for (a, b) in &pairs {
                assert_eq!(library::distance(asked, a, b), call(a, b));
            }
            let best = race(
                200,
                &mut [
                    &mut || (0..16).map(|_| pairs.iter().map(|(a, b)| library::distance(asked, a, b) as u64).sum::<u64>()).sum(),
                    &mut || (0..16).map(|_| pairs.iter().map(|(a, b)| call(a, b) as u64).sum::<u64>()).sum(),
                ],
            );
            println!("| {} | {} | {:.1} | {:.1} | {:.2} |", names[metric], width, best[0] / 1024.0, best[1] / 1024.0, best[0] / best[1]);
        }
    }
}

/// Insert with eight pivots in each channel, and add pivot over 4,096 patches.
fn changes() {
    println!();
    println!("Calls that change an index of 4,096 patches, 8 x 256 bytes, in microseconds.");
    println!();
    println!("| call | library | Rust | ratio |");
    println!("|---|---|---|---|");
    let n = 4096;
    let mut data = Data::new(KINDS[0], 2048);
    let patches: Vec<Vec<u8>> = (0..n).map(|_| data.patch()).collect();
    let mut library = library::Index::new(true, n as u16);
    let mut plain = plain::Index::new(channels(true));
    let (mut before, mut inserts, mut pivots) = (vec![], vec![], vec![]);
    for (i, rows) in patches.iter().enumerate() {
        library::insert(if i < 8 { &mut before } else { &mut inserts }, number(i), rows);
        if i < 8 {
            plain.insert(number(i), rows);
        }
    }
    serve_all(&mut library, &before, 8);
    for c in 0..8 {
        for p in 0..8 {
            library::add_pivot(&mut pivots, c as u8, number(p));
        }
    }
    let (mut bare, mut bare_plain) = (library.clone(), plain.clone());
    serve_all(&mut library, &pivots, 64);
    for c in 0..8 {
        for p in 0..8 {
            plain.add_pivot(c, number(p));
        }
    }
    let mut best = [f64::MAX; 4];
    let mut keep = |i: usize, start: f64| best[i] = best[i].min(now() - start);
    for _ in 0..5 {
        let mut x = library.clone();
        let start = now();
        serve_all(&mut x, &inserts, n - 8);
        keep(0, start);
        let mut y = plain.clone();
        let start = now();
        for (i, rows) in patches.iter().enumerate().skip(8) {
            black_box(y.insert(number(i), rows));
        }
        keep(1, start);
    }
    serve_all(&mut bare, &inserts, n - 8);
    for (i, rows) in patches.iter().enumerate().skip(8) {
        bare_plain.insert(number(i), rows);
    }
    for _ in 0..5 {
        let mut x = bare.clone();
        let start = now();
        serve_all(&mut x, &pivots, 64);
        keep(2, start);
        let mut y = bare_plain.clone();
        let start = now();
        for c in 0..8 {
            for p in 0..8 {
                black_box(y.add_pivot(c, number(p)));
            }
        }
        keep(3, start);
    }
    for (name, i, calls) in [("insert", 0, (n - 8) as f64), ("add pivot", 2, 64.0)] {
        println!("| {name} | {:.1} | {:.1} | {:.2} |", best[i] / calls / 1e3, best[i + 1] / calls / 1e3, best[i] / best[i + 1]);
    }
}

fn main() {
    match std::env::args().nth(1).as_deref() {
        Some("--quick") => searches(true),
        Some("--headline") => {
            headline();
            reading();
            metrics();
            changes();
        }
        _ => {
            searches(false);
            headline();
            reading();
            metrics();
            changes();
        }
    }
}
