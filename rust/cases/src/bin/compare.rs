//! Holds the library's case reader against the model: compare [--reference] [SEED [ROUNDS]]
//!
//! With --reference the model stands in the library's place. The last line is 'N passed, M failed'; any failure gives exit status 1.
use cases::by_hand;
use cases::check::{Lent, Verdict};
use cases::face::{Library, Reader, LINKED, MODEL};
use cases::files::{self, EXAMPLE, FAMILIES};
use cases::model::{self, MOST, ROOM};
use cases::pair;
use cases::random::Random;
use std::hint::black_box;
use std::time::{Duration, Instant};

/// The families, and behind them the files settled by hand, those of up to eight bytes 0 to 5, the first 4,096 bytes of long files, and
/// the families' files paired in one call.
const KINDS: usize = FAMILIES.len() + 4;
const BY_HAND: usize = FAMILIES.len();
const TINY: usize = FAMILIES.len() + 1;
const FIRST: usize = FAMILIES.len() + 2;
const PAIRED: usize = FAMILIES.len() + 3;
/// 0, then 20 to 26, and 6 of those that are paired.
const NUMBERS: usize = 9;
/// So many failures are printed whole.
const PRINTED: usize = 5;

fn name(kind: usize) -> &'static str {
    match kind {
        BY_HAND => "settled by hand",
        TINY => "up to 8 bytes 0 to 5",
        FIRST => "first 4,096 bytes",
        PAIRED => "paired in one call",
        _ => FAMILIES[kind],
    }
}

#[derive(Clone, Copy, Default)]
struct Tally {
    runs: u64,
    answers: [u64; NUMBERS],
    failed: u64,
}

#[derive(Default)]
struct Report {
    tallies: [Tally; KINDS],
    failures: Vec<String>,
}

impl Report {
    /// Whether it passed.
    fn enter(&mut self, kind: usize, file: &[u8], verdict: Verdict) -> bool {
        let tally = &mut self.tallies[kind];
        tally.runs += 1;
        match verdict {
            Ok(6) => tally.answers[NUMBERS - 1] += 1,
            Ok(number) => tally.answers[number.saturating_sub(19) as usize] += 1,
            Err(what) => {
                tally.failed += 1;
                if self.failures.len() < PRINTED {
                    self.failures.push(format!("{}: {what}; the file is {file:02x?}", name(kind)));
                }
                return false;
            }
        }
        true
    }

    fn add(&mut self, other: Report) {
        for (mine, theirs) in self.tallies.iter_mut().zip(other.tallies) {
            mine.runs += theirs.runs;
            mine.failed += theirs.failed;
            (0..NUMBERS).for_each(|number| mine.answers[number] += theirs.answers[number]);
        }
        self.failures.extend(other.failures);
    }
}

/// The files settled by hand: the model, and then the reader.
fn by_hand(reader: Reader, report: &mut Report) {
    let mut lent = Lent::new(0);
    for (what, file, number, place) in by_hand::all() {
        let modelled = model::read(&file).map_or_else(|refusal| (refusal.number, refusal.place), |_| (model::ACCEPTED, 0));
        let wrong = || Err(format!("{what}: the model says {modelled:?}, and not {:?}", (number, place)));
        lent.fill();
        report.enter(BY_HAND, &file, if modelled == (number, place) { lent.whole(reader, &file, (ROOM, ROOM)) } else { wrong() });
    }
    let example = model::read(&EXAMPLE).unwrap();
    let right = (example.n, example.window) == (2, 1000) && example.costs == [300, 900, 100, 500] && example.huts == [7, 9];
    report.enter(BY_HAND, &EXAMPLE, if right { Ok(model::ACCEPTED) } else { Err(format!("the model reads {example:?}")) });
}

/// All families of a seed, those that are the same at every seed in the first round only.
fn families(reader: Reader, library: Option<Library>, seed: u64, round: u64, report: &mut Report) {
    let mut lent = Lent::new(seed + round);
    let random = &mut Random::of(seed, round);
    for drawn in files::all(seed + round, false) {
        if round > 0 && files::is_fixed(drawn.family) {
            continue;
        }
        lent.fill();
        report.enter(drawn.family, &drawn.bytes, lent.whole(reader, &drawn.bytes, drawn.room));
        if drawn.bytes.len() > ROOM {
            report.enter(FIRST, &drawn.bytes, first_decide(reader, &drawn.bytes));
        }
        if let Some(library) = library {
            let lengths = pair::lengths(random);
            report.enter(PAIRED, &drawn.bytes, pair::check(library, random, &drawn.bytes, lengths));
        }
    }
}

/// The program reads the first 4,096 bytes: they must say what the whole file does.
fn first_decide(reader: Reader, file: &[u8]) -> Verdict {
    let read = |file: &[u8]| (reader.read_case)(file, &mut [0; ROOM], &mut [0; ROOM]);
    let (whole, first) = (read(file), read(&file[..4096]));
    if whole == first {
        Ok(whole.number)
    } else {
        Err(format!("{first:?} of the first 4,096 bytes, {whole:?} of all"))
    }
}

/// Every `threads`-th file of up to eight bytes from 0 to 5.
fn tiny(reader: Reader, first: u64, threads: u64, report: &mut Report) {
    let mut lent = Lent::new(first);
    for length in 0..=8 {
        let mut file = vec![0; length];
        for number in (first..6u64.pow(length as u32)).step_by(threads as usize) {
            let mut rest = number;
            for byte in &mut file {
                *byte = (rest % 6) as u8;
                rest /= 6;
            }
            let passed = report.enter(TINY, &file, lent.tiny(reader, &file));
            if number % 1000 == 0 || !passed {
                lent.fill();
            }
        }
    }
}

/// The median of many turns, in microseconds.
fn median(mut turn: impl FnMut()) -> f64 {
    let mut times: Vec<Duration> = vec![];
    for _ in 0..501 {
        let start = Instant::now();
        turn();
        times.push(start.elapsed());
    }
    times.sort();
    times[times.len() / 2].as_secs_f64() * 1e6
}

/// Times the reader on the largest file, whose pairs are nearly all allowed, beside the solver on its case.
fn time(Library { reader, solve, .. }: Library) {
    let random = &mut Random::of(1, 0);
    let rows = (0..MOST).map(|hut| files::fragment(hut as u16, 1, random.below(1_000_000) as u32));
    let mut records: Vec<files::Piece> = rows.collect();
    records.extend((0..MOST).map(|_| files::event(1, random.below(1_000_000) as u32)));
    let file = [files::size(MOST as u16, 900_000), records.concat(), files::end()].concat();
    let case = model::read(&file).unwrap();
    let (mut costs, mut mask) = ([0; ROOM], [0; ROOM]);
    let reads = median(|| _ = black_box((reader.read_case)(&file, &mut costs, &mut mask)));
    let by_model = median(|| _ = black_box((MODEL.read_case)(&file, &mut costs, &mut mask)));
    let huts = median(|| (0..MOST).for_each(|row| _ = black_box((reader.hut)(&file, row))));
    let solves = median(|| _ = black_box(solve(&case)));
    println!("the largest file, {} bytes, n = {MOST}: read_case {reads:.1} us, all huts {huts:.1} us", file.len());
    println!(
        "read_case takes {:.3} of the time that solving its case takes ({solves:.0} us), and {:.2} of the model's",
        reads / solves,
        reads / by_model
    );
}

fn main() {
    let mut words: Vec<String> = std::env::args().skip(1).collect();
    let by_reference = words.first().is_some_and(|word| word == "--reference");
    if by_reference {
        words.remove(0);
    }
    let number =
        |at: usize, default: u64| words.get(at).map_or(default, |word| word.parse().expect("compare [--reference] [SEED [ROUNDS]]"));
    let (seed, rounds) = (number(0, 1), number(1, 20));
    let library = if by_reference { None } else { LINKED };
    if library.is_none() && !by_reference {
        println!("compare: libserbihun.a was not there to be linked, nothing is compared\n0 passed, 1 failed");
        std::process::exit(1);
    }
    let reader = library.map_or(MODEL, |library| library.reader);

    println!("the {} against the model; seeds {seed} to {}", if by_reference { "model itself" } else { "library" }, seed + rounds - 1);
    let start = Instant::now();
    let mut report = Report::default();
    by_hand(reader, &mut report);
    let threads = std::thread::available_parallelism().map_or(1, |threads| threads.get() as u64);
    std::thread::scope(|scope| {
        let share = |first: u64| {
            let mut report = Report::default();
            (first..rounds).step_by(threads as usize).for_each(|round| families(reader, library, seed, round, &mut report));
            tiny(reader, first, threads, &mut report);
            report
        };
        let shares: Vec<_> = (0..threads).map(|first| scope.spawn(move || share(first))).collect();
        shares.into_iter().for_each(|share| report.add(share.join().unwrap()));
    });

    println!(
        "{:<21} {:>8} | {:>6} {:>5} {:>7} {:>7} {:>7} {:>6} {:>6} {:>6} {:>5} | failed",
        "family", "files", 0, 20, 21, 22, 23, 24, 25, 26, 6
    );
    for (kind, tally) in report.tallies.iter().enumerate() {
        let [a, b, c, d, e, f, g, h, i] = tally.answers;
        println!(
            "{:<21} {:>8} | {a:>6} {b:>5} {c:>7} {d:>7} {e:>7} {f:>6} {g:>6} {h:>6} {i:>5} | {}",
            name(kind),
            tally.runs,
            tally.failed
        );
    }
    if let Some(library) = library {
        time(library);
    }
    println!("{:.0} s", start.elapsed().as_secs_f64());
    report.failures.iter().take(PRINTED).for_each(|failure| println!("{failure}"));
    let failed: u64 = report.tallies.iter().map(|tally| tally.failed).sum();
    let passed = report.tallies.iter().map(|tally| tally.runs).sum::<u64>() - failed;
    println!("{passed} passed, {failed} failed");
    std::process::exit((failed > 0) as i32);
}
