//! Holds the solvers against the published crate, the reference and the definition: compare [--reference] [SEED [COUNT]]
//!
//! With --reference the reference stands in the solvers' place. The last line is 'N passed, M failed'; any failure gives exit status 1.
use oracle::face::{names, Solvers, LINKED};
use oracle::runs::{self, Seen, Verdict};
use oracle::{draw::Random, fixed, reference};
use std::time::Instant;

const KINDS: [&str; 6] = ["fixed", "i32, full", "f32, masked", "i64, masked, watched", "every budget, watched", "faults"];
const NUMBERS: usize = 8;
/// So many failures are printed whole.
const PRINTED: usize = 5;

/// Runs of one kind, counted.
#[derive(Clone, Copy, Default)]
struct Tally {
    runs: u64,
    answers: [u64; NUMBERS],
    wrapped: u64,
    failed: u64,
}

#[derive(Default)]
struct Report {
    tallies: [Tally; KINDS.len()],
    failures: Vec<String>,
}

impl Report {
    fn enter(&mut self, kind: usize, run: u64, verdict: Verdict) {
        let tally = &mut self.tallies[kind];
        tally.runs += 1;
        match verdict {
            Ok(Seen::Agreed(number)) => tally.answers[number as usize] += 1,
            Ok(Seen::Wrapped(number)) => {
                tally.answers[number as usize] += 1;
                tally.wrapped += 1;
            }
            Err(what) => {
                tally.failed += 1;
                if self.failures.len() < PRINTED {
                    self.failures.push(format!("{}, run {run}: {what}", KINDS[kind]));
                }
            }
        }
    }

    fn add(&mut self, other: Report) {
        for (mine, theirs) in self.tallies.iter_mut().zip(other.tallies) {
            mine.runs += theirs.runs;
            mine.wrapped += theirs.wrapped;
            mine.failed += theirs.failed;
            (0..NUMBERS).for_each(|number| mine.answers[number] += theirs.answers[number]);
        }
        self.failures.extend(other.failures);
    }
}

/// Every `threads`-th run from `first` on.
fn share(solvers: Solvers, seed: u64, count: u64, first: u64, threads: u64) -> Report {
    let mut report = Report::default();
    for run in (first..count).step_by(threads as usize) {
        let random = &mut Random::of(seed, run);
        match random.below(20) {
            0..=6 => report.enter(1, run, runs::full_i32(solvers, random)),
            7..=10 => report.enter(2, run, runs::masked_f32(solvers, random)),
            11..=15 => report.enter(3, run, runs::masked_i64(solvers, random)),
            16 => runs::every_budget(solvers, random).into_iter().for_each(|verdict| report.enter(4, run, verdict)),
            _ => report.enter(5, run, runs::faults(solvers, random)),
        }
    }
    report
}

fn main() {
    let mut words: Vec<String> = std::env::args().skip(1).collect();
    let by_reference = words.first().is_some_and(|word| word == "--reference");
    if by_reference {
        words.remove(0);
    }
    let number =
        |at: usize, default: u64| words.get(at).map_or(default, |word| word.parse().expect("compare [--reference] [SEED [COUNT]]"));
    let (seed, count) = (number(0, 1), number(1, 400_000));
    let solvers = if by_reference { reference::ALONE } else { LINKED };
    if solvers.is_empty() {
        println!("compare: libserbihun.a was not there to be linked, nothing is compared\n0 passed, 1 failed");
        std::process::exit(1);
    }

    // The crate's overflow panics are asked for and say nothing; any other one is printed.
    let print = std::panic::take_hook();
    std::panic::set_hook(Box::new(move |panic| {
        if !munkres_checked::said(panic.payload()).ends_with("with overflow") {
            print(panic);
        }
    }));

    println!("{} against the crate munkres 0.5.2; seed {seed}, {count} draws", names(solvers));
    let start = Instant::now();
    let mut report = Report::default();
    fixed::all(solvers).into_iter().zip(0..).for_each(|(verdict, run)| report.enter(0, run, verdict));
    let threads = std::thread::available_parallelism().map_or(1, |threads| threads.get() as u64);
    std::thread::scope(|scope| {
        let shares: Vec<_> = (0..threads).map(|first| scope.spawn(move || share(solvers, seed, count, first, threads))).collect();
        shares.into_iter().for_each(|share| report.add(share.join().unwrap()));
    });

    println!("{:<22} {:>8} | answers {:>9} {:>5} {:>6} {:>6} {:>6} {:>6} {:>7} {:>7} | failed", "kind", "runs", 0, 1, 2, 3, 4, 5, 6, 7);
    for (kind, tally) in KINDS.iter().zip(&report.tallies) {
        let [a, b, c, d, e, f, g, h] = tally.answers;
        println!("{kind:<22} {:>8} | {a:>17} {b:>5} {c:>6} {d:>6} {e:>6} {f:>6} {g:>7} {h:>7} | {}", tally.runs, tally.failed);
    }
    let Tally { runs, wrapped, .. } = report.tallies[1];
    println!(
        "the crate's i32 arithmetic wraps in {wrapped} of {runs} runs ({:.2} %): their pairing is left out",
        100.0 * wrapped as f64 / runs.max(1) as f64
    );
    println!("{:.0} s", start.elapsed().as_secs_f64());
    report.failures.iter().take(PRINTED).for_each(|failure| println!("{failure}"));
    let failed: u64 = report.tallies.iter().map(|tally| tally.failed).sum();
    let passed = report.tallies.iter().map(|tally| tally.runs).sum::<u64>() - failed;
    println!("{passed} passed, {failed} failed");
    std::process::exit((failed > 0) as i32);
}
