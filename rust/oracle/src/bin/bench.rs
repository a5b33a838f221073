//! Times the solvers, the crate with i32 and with i64 weights, and SciPy: bench | bench one KIND N WHO TIMES
//!
//! The contenders take turns on each matrix, and the median of the turns counts. A solver is timed with its reading of the cost bytes;
//! of the crate only `solve_assignment` is timed, not the making of its matrix, which it uses up; of SciPy the call from Python. `one`
//! does a single thing several times, for a tool that counts instructions.
use munkres::{solve_assignment, WeightMatrix, WeightNum};
use oracle::draw::{bytes, enough, lengths, Buffers, Random};
use oracle::face::{Solver, LINKED};
use oracle::scipy::Scipy;
use oracle::watch::{Masked32, Masked64};
use std::hint::black_box;
use std::time::{Duration, Instant};

const SIZES: [usize; 4] = [8, 16, 32, 64];
const KINDS: [&str; 4] = ["full random", "costs 0 to 3", "worst case (i+1)(j+1)", "half forbidden"];
const WHO: [&str; 5] = ["quick", "by-steps", "crate-i32", "crate-i64", "scipy"];

struct Matrix {
    n: usize,
    full: bool,
    costs: Vec<i32>,
    mask: Vec<u8>,
    buffers: Buffers,
}

fn matrix(kind: usize, n: usize, run: u64) -> Matrix {
    let random = &mut Random::of(n as u64, run);
    let mut mask = vec![1; n * n];
    let cost = |q: usize| match kind {
        1 => random.within(0..=3) as i32,
        2 => ((q / n + 1) * (q % n + 1)) as i32,
        _ => random.within(0..=1_000_000) as i32,
    };
    let costs: Vec<i32> = (0..n * n).map(cost).collect();
    if kind == 3 {
        mask.iter_mut().for_each(|bit| *bit = random.below(2) as u8);
        random.permutation(n).iter().enumerate().for_each(|(row, column)| mask[row * n + column] = 1);
    }
    let buffers = Buffers::new(random, &bytes(&costs), &mask, lengths(n));
    Matrix { n, full: kind != 3, costs, mask, buffers }
}

/// The time, and the total.
fn by_solver(solver: Solver, matrix: &mut Matrix) -> (Duration, i64) {
    let (costs, mask, lent) = matrix.buffers.lend();
    let start = Instant::now();
    let answer = solver(matrix.n, costs, mask, enough(matrix.n), lent);
    let time = start.elapsed();
    assert_eq!(black_box(answer).number, 0);
    (time, answer.total)
}

fn by_crate<T: WeightNum>(matrix: &Matrix, weight: impl Fn(usize) -> T) -> (Duration, i64) {
    let mut weights = WeightMatrix::from_row_vec(matrix.n, (0..matrix.n * matrix.n).map(weight).collect());
    let start = Instant::now();
    let pairs = solve_assignment(&mut weights);
    let time = start.elapsed();
    let total = black_box(pairs).unwrap().iter().map(|place| matrix.costs[place.row * matrix.n + place.column] as i64).sum();
    (time, total)
}

/// One contender on one matrix. The crate has plain numbers for full matrices, and for the others numbers that may be invalid.
fn turn(who: usize, scipy: &mut Option<Scipy>, at: usize, matrix: &mut Matrix) -> Option<(Duration, i64)> {
    let (costs, mask) = (&matrix.costs, &matrix.mask);
    Some(match (who, matrix.full) {
        (0 | 1, _) => by_solver(LINKED[who].1, matrix),
        (2, true) => by_crate(matrix, |q| costs[q]),
        (2, false) => by_crate(matrix, |q| Masked32::of(costs[q], mask[q] == 1)),
        (3, true) => by_crate(matrix, |q| costs[q] as i64),
        (3, false) => by_crate(matrix, |q| Masked64::of(costs[q], mask[q] == 1)),
        _ => scipy.as_mut()?.solve(at),
    })
}

/// The time of each contender for one matrix, in microseconds: the median of each matrix over the rounds, averaged over the matrices.
/// None of a contender that is not there. All totals of a matrix must be equal.
fn medians(kind: usize, n: usize) -> [Option<f64>; WHO.len()] {
    let count = if kind == 2 { 1 } else { 512 / n };
    let mut matrices: Vec<Matrix> = (0..count).map(|run| matrix(kind, n, run as u64)).collect();
    let mut scipy = Scipy::start();
    if let Some(scipy) = &mut scipy {
        matrices.iter().for_each(|matrix| scipy.lend(n, &matrix.costs, &matrix.mask));
    }
    let mut times = WHO.map(|_| vec![Vec::<Duration>::new(); count]);
    let start = Instant::now();
    for round in 0..2001 {
        if round >= 15 && start.elapsed() > Duration::from_secs(3) {
            break;
        }
        for (at, matrix) in matrices.iter_mut().enumerate() {
            let mut least = None;
            for who in (0..WHO.len()).map(|step| (round + step) % WHO.len()) {
                if let Some((time, total)) = turn(who, &mut scipy, at, matrix) {
                    times[who][at].push(time);
                    assert_eq!(*least.get_or_insert(total), total, "{}", WHO[who]);
                }
            }
        }
    }
    let median = |times: &mut Vec<Duration>| {
        times.sort();
        Some(times.get(times.len() / 2)?.as_secs_f64() * 1e6)
    };
    times.map(|mut of_matrix| Some(of_matrix.iter_mut().map(median).sum::<Option<f64>>()? / count as f64))
}

fn main() {
    if LINKED.is_empty() {
        println!("bench: libserbihun.a was not there to be linked, nothing is timed");
        std::process::exit(1);
    }
    let words: Vec<String> = std::env::args().skip(1).collect();
    if let [one, kind, n, who, times] = &words[..] {
        assert_eq!(one, "one");
        let mut matrix = matrix(kind.parse().unwrap(), n.parse().unwrap(), 0);
        let who = WHO.iter().position(|name| name == who).unwrap();
        (0..times.parse().unwrap()).for_each(|_| _ = turn(who, &mut None, 0, &mut matrix));
        return;
    }
    println!("| Matrix | n | quick, us | by steps, us | crate i32, us | crate i64, us | SciPy, us | quick / i32 | by steps / i32 | quick / SciPy |");
    println!("|---|---|---|---|---|---|---|---|---|---|");
    let cell = |time: Option<f64>| time.map_or("not there".to_string(), |time| format!("{time:.2}"));
    let ratio = |a: Option<f64>, b: Option<f64>| a.zip(b).map_or("-".to_string(), |(a, b)| format!("{:.3}", a / b));
    for (kind, name) in KINDS.iter().enumerate() {
        for n in SIZES {
            let times = medians(kind, n);
            let ratios = [ratio(times[0], times[2]), ratio(times[1], times[2]), ratio(times[0], times[4])];
            println!("| {name} | {n} | {} | {} |", times.map(cell).join(" | "), ratios.join(" | "));
        }
    }
}
