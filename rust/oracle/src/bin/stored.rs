//! Writes the crate's answers to a few thousand matrices into a file, or replays such a file: stored write FILE [SEED] | stored check FILE
//!
//! All that is stored was seen of the crate at work (watch.rs); neither a solver nor the reference has a part in it. The format is
//! written down in README.md. `check` replays the file on both solvers, and on the reference where none is linked.
use oracle::draw::{self, bytes, enough, lengths, Buffers, Case, Random};
use oracle::face::{names, Answer, Solver, LIMIT, LINKED, MOST};
use oracle::reference;
use oracle::watch::watch;

const HEADER: usize = 128;

/// The matrices: many small ones, each size up to 64, and at some sizes the worst case and the chain of the greatest prices.
fn cases(seed: u64) -> Vec<Case> {
    let sizes = (0..2400).map(|i| 1 + i % 8).chain((0..240).map(|i| 9 + i % 8)).chain((0..64).map(|i| 17 + i % 16)).chain(33..=MOST);
    let mut cases: Vec<Case> = sizes.zip(0..).map(|(n, run)| drawn(&mut Random::of(seed, run), n)).collect();
    for n in [2, 5, 16, 32, MOST] {
        let product = |q: usize| ((q / n + 1) * (q % n + 1)) as i32;
        cases.push(Case { n, costs: (0..n * n).map(product).collect(), mask: vec![1; n * n], budget: enough(n) });
    }
    for n in [2, 5, 16, MOST] {
        let chain = |q: usize| if q % n == q / n + 1 { LIMIT as i32 } else { -LIMIT as i32 };
        let allowed = |q: usize| if q / n < n - 1 { q % n == q / n || q % n == q / n + 1 } else { q % n == 0 };
        let mask = (0..n * n).map(|q| allowed(q) as u8).collect();
        cases.push(Case { n, costs: (0..n * n).map(chain).collect(), mask, budget: enough(n) });
    }
    cases
}

/// A random case; the larger ones have small costs, which take little room.
fn drawn(random: &mut Random, n: usize) -> Case {
    let most = match n {
        1..=8 => random.pick(&[3, 60, 60, 1000, 1000, 1_000_000, LIMIT]),
        9..=32 => random.pick(&[3, 60, 60, 1000]),
        _ => 30,
    };
    let mut costs = draw::costs(random, n, most);
    let mask = if random.once_in(3) { vec![1; n * n] } else { draw::mask(random, n) };
    if n <= 8 && random.once_in(4) {
        draw::spoil_forbidden(random, &mut costs, &mask);
    }
    let budget = if random.once_in(4) { random.below(n.div_ceil(2)) as u32 } else { enough(n) };
    Case { n, costs, mask, budget }
}

/// The fewest bytes, of 1, 2, 4 and 8, that hold all these numbers.
fn width(numbers: &[i64]) -> usize {
    let holds = |bytes: &usize| numbers.iter().all(|&x| x >= -1 << (8 * bytes - 1) && x <= i64::MAX >> (64 - 8 * bytes));
    [1, 2, 4, 8].into_iter().find(holds).unwrap()
}

fn push(record: &mut Vec<u8>, numbers: &[i64], width: usize) {
    numbers.iter().for_each(|x| record.extend(&x.to_le_bytes()[..width]));
}

/// One record without its length.
fn record(case: &Case) -> Vec<u8> {
    let n = case.n;
    let mut seen = watch(n, &case.costs, &case.mask, case.budget);
    if !seen.began {
        // A row without an allowed cell: the crate says no more than that it cannot be solved.
        let row = (0..n).find(|row| case.mask[row * n..][..n].iter().all(|&bit| bit == 0)).unwrap();
        seen.block_rows = 1 << row;
        seen.block_columns = u64::MAX >> (MOST - n);
    }
    let costs: Vec<i64> = case.costs.iter().map(|&cost| cost as i64).collect();
    let values = [&seen.row_prices[..], &seen.column_prices, &seen.working].concat();
    let (cost_width, value_width) = (width(&costs), if seen.began { width(&values) } else { 0 });
    let total: i64 = seen.columns.iter().enumerate().map(|(row, &column)| costs[row * n + column as usize]).sum();

    let mut record = vec![n as u8, seen.number as u8, cost_width as u8, value_width as u8];
    for number in [case.budget, seen.adjustments, seen.primes, seen.augmentations] {
        record.extend(number.to_le_bytes());
    }
    for number in [total as u64, seen.block_rows, seen.block_columns] {
        record.extend(number.to_le_bytes());
    }
    for row in case.mask.chunks(n) {
        row.chunks(8).for_each(|eight| record.push(eight.iter().enumerate().map(|(bit, one)| one << bit).sum()));
    }
    push(&mut record, &costs, cost_width);
    record.extend(seen.columns.iter().map(|&column| column as u8));
    push(&mut record, &values, value_width);
    record
}

fn write(file: &str, seed: u64) {
    let mut all = format!("Answers of the crate munkres 0.5.2, made by: rust/oracle/run stored write FILE {seed}").into_bytes();
    all.resize(HEADER - 1, b' ');
    all.push(b'\n');
    let (mut counts, mut longest) = ([0; 8], 0);
    let cases = cases(seed);
    for case in &cases {
        let record = record(case);
        counts[record[1] as usize] += 1;
        longest = longest.max(record.len());
        all.extend((record.len() as u32).to_le_bytes());
        all.extend(record);
    }
    all.extend([0; 4]);
    std::fs::write(file, &all).expect(file);
    println!("{} records: {} paired, {} without a pairing, {} unfinished", cases.len(), counts[0], counts[6], counts[7]);
    println!("{} bytes, the longest record {longest}", all.len());
}

/// Takes the front of a record.
fn take<'a>(rest: &mut &'a [u8], length: usize) -> &'a [u8] {
    let (front, behind) = rest.split_at(length);
    *rest = behind;
    front
}

fn take_number(rest: &mut &[u8], width: usize) -> i64 {
    let mut eight = [0; 8];
    eight[..width].copy_from_slice(take(rest, width));
    // The sign of the last byte that is there goes on.
    i64::from_le_bytes(eight) << (64 - 8 * width) >> (64 - 8 * width)
}

/// Replays one record: whether answer and buffers are as stored.
fn replay(solver: Solver, mut rest: &[u8]) -> bool {
    let rest = &mut rest;
    let [n, number, cost_width, value_width] = [0; 4].map(|_: u8| take(rest, 1)[0] as usize);
    let [budget, adjustments, primes, augmentations] = [0; 4].map(|_: u8| take_number(rest, 4) as u32);
    let [total, block_rows, block_columns] = [0; 3].map(|_: u8| take_number(rest, 8));
    let rows = take(rest, n * n.div_ceil(8));
    let mask: Vec<u8> = (0..n * n).map(|q| rows[q / n * n.div_ceil(8) + q % n / 8] >> (q % n % 8) & 1).collect();
    let costs: Vec<i32> = (0..n * n).map(|_| take_number(rest, cost_width) as i32).collect();
    let columns: Vec<u16> = take(rest, if number == 0 { n } else { 0 }).iter().map(|&column| column as u16).collect();

    let mut buffers = Buffers::new(&mut Random::of(n as u64, 0), &bytes(&costs), &mask, lengths(n));
    let before = buffers.clone();
    let (costs, mask, lent) = buffers.lend();
    let answer = solver(n, costs, mask, budget, lent);
    let (block_rows, block_columns) = (block_rows as u64, block_columns as u64);
    let wanted = Answer { number: number as u32, place: 0, total, adjustments, primes, augmentations, block_rows, block_columns };
    let columns_hold = buffers.columns.lent() == if number == 0 { &columns } else { before.columns.lent() };
    let values_hold = if value_width == 0 {
        buffers.differs(&before).is_none()
    } else {
        let values = [buffers.row_prices.lent(), buffers.column_prices.lent(), buffers.working.lent()].concat();
        values.iter().all(|&value| value == take_number(rest, value_width))
    };
    answer == wanted && columns_hold && values_hold && rest.is_empty()
}

fn check(file: &str) {
    let all = std::fs::read(file).expect(file);
    let solvers = if LINKED.is_empty() { reference::ALONE } else { LINKED };
    let mut rest = &all[HEADER..];
    let (mut passed, mut failed) = (0, 0);
    loop {
        let length = take_number(&mut rest, 4) as usize;
        if length == 0 {
            break;
        }
        let record = take(&mut rest, length);
        for (_, solver) in solvers {
            if replay(*solver, record) {
                passed += 1;
            } else {
                failed += 1;
            }
        }
    }
    assert!(rest.is_empty());
    println!("replayed on {}", names(solvers));
    println!("{passed} passed, {failed} failed");
    std::process::exit((failed > 0) as i32);
}

fn main() {
    let words: Vec<String> = std::env::args().skip(1).collect();
    match words.iter().map(String::as_str).collect::<Vec<_>>()[..] {
        ["write", file] => write(file, 1),
        ["write", file, seed] => write(file, seed.parse().expect("a seed")),
        ["check", file] => check(file),
        _ => {
            eprintln!("stored write FILE [SEED] | stored check FILE");
            std::process::exit(2);
        }
    }
}
