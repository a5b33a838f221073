//! The random runs: one function for each way of comparing the solvers, the reference and the crate.
use crate::check::check;
use crate::draw::{self, enough, lengths, Buffers, Case, Lengths, Random};
use crate::face::{Answer, Solver, Solvers, LIMIT, MOST};
use crate::reference;
use crate::watch::{chosen, watch};
use munkres::{solve_assignment, Error, WeightMatrix, Weights};
use munkres_checked::wraps;

/// What came of one run.
#[derive(Clone, Copy)]
pub enum Seen {
    /// The answer has this number, and all agree.
    Agreed(u32),
    /// The crate's own arithmetic wraps, so its pairing was not asked for; all others agree.
    Wrapped(u32),
}

/// A run, or what was wrong with it.
pub type Verdict = Result<Seen, String>;

/// Calls the solvers and the reference on the same random prior contents; the answer and every byte must be equal, guard zones included.
pub fn alike(
    solvers: Solvers,
    random: &mut Random,
    n: usize,
    costs: &[u8],
    mask: &[u8],
    budget: u32,
    lengths: Lengths,
) -> Result<(Answer, Buffers), String> {
    let before = Buffers::new(random, costs, mask, lengths);
    let call = |solver: Solver| {
        let mut buffers = before.clone();
        let (costs, mask, lent) = buffers.lend();
        (solver(n, costs, mask, budget, lent), buffers)
    };
    let (wanted, expected) = call(reference::solve);
    for (name, solver) in solvers {
        let (answer, buffers) = call(*solver);
        if answer != wanted {
            return Err(format!("{name}, n {n} budget {budget}: the answer is {answer:?}, the reference's {wanted:?}"));
        }
        if let Some(buffer) = buffers.differs(&expected) {
            return Err(format!("{name}, n {n} budget {budget}: {buffer} not as the reference's at answer {}", answer.number));
        }
    }
    Ok((wanted, expected))
}

/// The same on a case without faults, checked by the definition too.
pub fn answered(solvers: Solvers, random: &mut Random, case: &Case) -> Result<(Answer, Buffers), String> {
    let (answer, buffers) = alike(solvers, random, case.n, &case.bytes(), &case.mask, case.budget, lengths(case.n))?;
    check(case, &answer, &buffers).map_err(|what| format!("{what}\n{case:?}\n{answer:?}"))?;
    Ok((answer, buffers))
}

/// Holds pairing or refusal against the crate's.
fn same_pairing<W: Weights>(mut weights: W, case: &Case, answer: &Answer, buffers: &Buffers) -> Verdict {
    let same = match solve_assignment(&mut weights) {
        Ok(pairs) => answer.number == 0 && chosen(&pairs) == buffers.columns.lent(),
        Err(Error::MatrixNotSolvable) => answer.number == 6,
        Err(Error::NoPrimeInRow) => false,
    };
    if same {
        Ok(Seen::Agreed(answer.number))
    } else {
        Err(format!("not the crate's pairing\n{case:?}\n{answer:?}"))
    }
}

/// The greatest cost with which an i32 run of size n cannot wrap: working values and prices stay within four times n times it.
fn unwrapped(n: usize) -> i64 {
    LIMIT.min(i32::MAX as i64 / (4 * n as i64))
}

/// Full matrices with the crate's i32 weights; one in ten may wrap.
pub fn full_i32(solvers: Solvers, random: &mut Random) -> Verdict {
    let n = random.size();
    let most = if random.once_in(10) { LIMIT } else { unwrapped(n) };
    let case = Case { n, costs: draw::costs(random, n, most), mask: vec![1; n * n], budget: enough(n) };
    let (answer, buffers) = answered(solvers, random, &case)?;
    if wraps(n, &case.costs) {
        return if most == unwrapped(n) { Err(format!("a run that cannot wrap does\n{case:?}")) } else { Ok(Seen::Wrapped(answer.number)) };
    }
    same_pairing(WeightMatrix::from_row_vec(n, case.costs.clone()), &case, &answer, &buffers)
}

/// Masked matrices with the crate's f32 weights, costs 0 to 1000; infinity, or now and then another number that is not finite, forbids.
pub fn masked_f32(solvers: Solvers, random: &mut Random) -> Verdict {
    let n = random.size();
    let most = random.pick(&[3, 1000]);
    let costs = (0..n * n).map(|_| random.within(0..=most) as i32).collect();
    let mask = draw::mask(random, n);
    let case = Case { n, costs, mask, budget: enough(n) };
    let (answer, buffers) = answered(solvers, random, &case)?;
    let forbidden = if random.once_in(8) { &[f32::INFINITY, f32::NEG_INFINITY, f32::NAN][..] } else { &[f32::INFINITY] };
    let weight = |q: usize| if case.mask[q] == 1 { case.costs[q] as f32 } else { random.pick(forbidden) };
    same_pairing(WeightMatrix::from_row_vec(n, (0..n * n).map(weight).collect()), &case, &answer, &buffers)
}

/// Holds everything that can be seen of the crate at work against the answer.
pub fn same_as_watched(case: &Case, answer: &Answer, buffers: &Buffers) -> Verdict {
    let seen = watch(case.n, &case.costs, &case.mask, case.budget);
    let counts = (seen.adjustments, seen.primes, seen.augmentations) == (answer.adjustments, answer.primes, answer.augmentations);
    let primed = || (0..case.n * case.n).filter(|&q| buffers.marks.lent()[q] == 2).collect::<Vec<_>>();
    let same = [
        ("number", seen.number == answer.number),
        ("counts", counts),
        ("columns", seen.number != 0 || seen.columns == buffers.columns.lent()),
        ("row prices", !seen.began || seen.row_prices == buffers.row_prices.lent()),
        ("column prices", !seen.began || seen.column_prices == buffers.column_prices.lent()),
        ("working", !seen.began || seen.working == buffers.working.lent()),
        ("primes", !seen.began || seen.primed == primed()),
        ("block rows", !seen.began || seen.block_rows == answer.block_rows),
        ("block columns", !seen.began || seen.block_columns == answer.block_columns),
    ];
    match same.iter().find(|(_, same)| !same) {
        Some((name, _)) => Err(format!("{name} not as seen in the crate\n{case:?}\n{answer:?}")),
        None => Ok(Seen::Agreed(answer.number)),
    }
}

/// Masked matrices with 64-bit weights, the crate being watched; one in four has a budget that may be too small.
pub fn masked_i64(solvers: Solvers, random: &mut Random) -> Verdict {
    let n = random.size();
    let mut case = draw::case(random, n);
    if random.once_in(4) {
        case.budget = random.within(0..=enough(n) as i64) as u32;
    }
    let (answer, buffers) = answered(solvers, random, &case)?;
    same_as_watched(&case, &answer, &buffers)
}

/// One small matrix and every budget from 0 to the ceiling, one more and the greatest of all.
pub fn every_budget(solvers: Solvers, random: &mut Random) -> Vec<Verdict> {
    let n = random.within(1..=9) as usize;
    let mut case = draw::case(random, n);
    let mut run = |budget| {
        case.budget = budget;
        let (answer, buffers) = answered(solvers, random, &case)?;
        same_as_watched(&case, &answer, &buffers)
    };
    (0..=enough(n) + 1).chain([u32::MAX]).map(&mut run).collect()
}

/// A call with several things wrong at once, or none.
pub fn faults(solvers: Solvers, random: &mut Random) -> Verdict {
    let n = if random.once_in(20) { random.within(60..=64) } else { random.within(1..=9) } as usize;
    let mut case = draw::case(random, n);
    let mut asked = n;
    let mut right = true;
    let mut lengths = lengths(n);
    if random.once_in(6) {
        asked = random.pick(&[0, n - 1, n + 1, MOST + 1, MOST + n, 256, 1 << 32, (1 << 32) + n, 1 << 63, usize::MAX]);
    }
    for _ in 0..random.pick(&[0, 0, 0, 1, 3]) {
        let place = random.below(n * n);
        case.mask[place] = random.pick(&[2, 3, 127, 128, 254, 255]);
    }
    for _ in 0..random.pick(&[0, 0, 0, 1, 3]) {
        let place = random.below(n * n);
        case.costs[place] = random.pick(&[LIMIT as i32 + 1, -LIMIT as i32 - 1, LIMIT as i32, -LIMIT as i32, i32::MIN, i32::MAX]);
    }
    let (mut costs, mut mask) = (case.bytes(), case.mask.clone());
    for _ in 0..random.pick(&[0, 0, 0, 1, 2]) {
        right = false;
        match random.below(7) {
            0 => costs.resize(wrong(random, 4 * n * n), 7),
            1 => mask.resize(wrong(random, n * n), 1),
            at => lengths[at - 2] = wrong(random, lengths[at - 2]),
        }
    }
    let (answer, buffers) = alike(solvers, random, asked, &costs, &mask, case.budget, lengths)?;
    if asked == n && right && matches!(answer.number, 0 | 6 | 7) {
        check(&case, &answer, &buffers).map_err(|what| format!("{what}\n{case:?}\n{answer:?}"))?;
        return same_as_watched(&case, &answer, &buffers);
    }
    Ok(Seen::Agreed(answer.number))
}

/// Another length than the right one.
fn wrong(random: &mut Random, right: usize) -> usize {
    loop {
        let length = random.pick(&[0, 1, right.saturating_sub(1), right + 1, right + 3, 2 * right, right / 2, right / 4, 4 * right]);
        if length != right {
            return length;
        }
    }
}
