//! The fixed runs: the sample table, each refusal at its limits, and the matrices on which the crate's i32 run wraps.
use crate::draw::{bytes, enough, lengths, Case, Random};
use crate::face::{Answer, Solvers, LIMIT};
use crate::runs::{alike, answered, same_as_watched, Seen, Verdict};
use crate::watch::chosen;
use munkres::{solve_assignment, WeightMatrix};
use munkres_checked::wraps;

/// All of them.
pub fn all(solvers: Solvers) -> Vec<Verdict> {
    let mut verdicts = samples(solvers);
    verdicts.extend(sizes_and_lengths(solvers));
    verdicts.extend(masks_and_costs(solvers));
    verdicts.extend(worst_cases(solvers));
    verdicts.extend(wrapped(solvers));
    verdicts
}

fn agreed(holds: bool, number: u32, what: impl Fn() -> String) -> Verdict {
    if holds {
        Ok(Seen::Agreed(number))
    } else {
        Err(what())
    }
}

/// A case from a text such as "X 7 / 3 X".
fn case(text: &str, budget: u32) -> Case {
    let words: Vec<&str> = text.split_whitespace().filter(|word| *word != "/").collect();
    let costs = words.iter().map(|word| word.parse().unwrap_or(i32::MAX)).collect();
    let mask = words.iter().map(|word| (*word != "X") as u8).collect();
    Case { n: text.split('/').count(), costs, mask, budget }
}

/// The table of sample matrices: number, columns, total, counts, block.
fn samples(solvers: Solvers) -> Vec<Verdict> {
    let enough = u32::MAX;
    #[rustfmt::skip]
    let table: &[(&str, u32, u32, &[u16], i64, [u32; 3], u64, u64)] = &[
        ("-5", enough, 0, &[0], -5, [0, 0, 0], 0, 0),
        ("250 400 350 / 400 600 350 / 200 400 250", enough, 0, &[1, 2, 0], 950, [1, 2, 1], 0, 0),
        ("1 1 / 2 2", enough, 0, &[0, 1], 3, [0, 0, 0], 0, 0),
        ("250 400 350 / 400 600 X / 200 400 250", enough, 0, &[1, 0, 2], 1050, [2, 3, 2], 0, 0),
        ("X 400 350 / X 400 600 / 400 250 X", enough, 0, &[2, 1, 0], 1150, [1, 1, 1], 0, 0),
        ("X 400 350 / X 400 600 / X 400 250", enough, 6, &[], 0, [0, 0, 0], 0b111, 0b001),
        ("X 400 X / X 400 X / 400 250 0", enough, 6, &[], 0, [1, 1, 0], 0b011, 0b101),
        ("1 1 1 / X X X / 1 1 1", enough, 6, &[], 0, [0, 0, 0], 0b010, 0b111),
        ("-3 5 / -4 2", enough, 0, &[0, 1], -1, [1, 1, 1], 0, 0),
        ("X 7 / 3 X", enough, 0, &[1, 0], 10, [0, 0, 0], 0, 0),
        ("0 5 5 / 0 5 5 / 0 5 5", enough, 0, &[2, 1, 0], 10, [1, 5, 2], 0, 0),
        ("1000000000", enough, 0, &[0], 1_000_000_000, [0, 0, 0], 0, 0),
    ];
    let mut random = Random::of(1, 1);
    let mut verdicts = vec![];
    for &(text, budget, number, columns, total, [adjustments, primes, augmentations], block_rows, block_columns) in table {
        let case = case(text, budget);
        verdicts.push(answered(solvers, &mut random, &case).and_then(|(answer, buffers)| {
            let wanted = Answer { number, place: 0, total, adjustments, primes, augmentations, block_rows, block_columns };
            agreed(answer == wanted && (number != 0 || buffers.columns.lent() == columns), number, || format!("sample {text}: {answer:?}"))
        }));
    }
    // What the table says besides: prices of the second sample, budgets of the fourth and the seventh, the first cost out of range.
    verdicts.push(answered(solvers, &mut random, &case(table[1].0, enough)).and_then(|(_, buffers)| {
        let prices = [buffers.row_prices.lent(), buffers.column_prices.lent()].concat();
        agreed(prices == [250, 350, 200, 0, 150, 0], 0, || format!("sample prices {prices:?}"))
    }));
    for (text, budget) in [(table[3].0, 1), (table[6].0, 0)] {
        verdicts.push(answered(solvers, &mut random, &case(text, budget)).and_then(|(answer, _)| {
            let unfinished = answer.number == 7 && answer.adjustments == budget;
            agreed(unfinished, 7, || format!("sample {text}, budget {budget}: {answer:?}"))
        }));
    }
    verdicts.push(refusal(solvers, &mut random, 1, &[1_000_000_001], &[1], 5, 0));
    verdicts
}

/// A call with right lengths that must be refused with this number and place.
fn refusal(solvers: Solvers, random: &mut Random, n: usize, costs: &[i32], mask: &[u8], number: u32, place: usize) -> Verdict {
    let (answer, _) = alike(solvers, random, n, &bytes(costs), mask, 0, lengths(n))?;
    let wanted = Answer { number, place, ..Answer::default() };
    agreed(answer == wanted, number, || format!("refusal {number} at {place} wanted: {answer:?}"))
}

/// Sizes out of range with every buffer right, empty or odd; then each buffer alone with each wrong length.
fn sizes_and_lengths(solvers: Solvers) -> Vec<Verdict> {
    let mut random = Random::of(1, 2);
    let mut verdicts = vec![];
    for (n, number) in [(0, 1), (65, 2), (66, 2), (1 << 32, 2), (1 << 63, 2), (usize::MAX, 2)] {
        for lent in [0, 1, 8, 64, 65, 66] {
            let cells = lent * lent;
            verdicts.push(alike(solvers, &mut random, n, &vec![0; 4 * cells], &vec![9; cells], 0, lengths(lent)).and_then(
                |(answer, _)| {
                    agreed(answer == Answer { number, ..Answer::default() }, number, || format!("n {n} with buffers of {lent}: {answer:?}"))
                },
            ));
        }
    }
    for n in [1, 2, 3, 8, 63, 64] {
        for buffer in 0..7 {
            let right = [4 * n * n, n * n, n * n, n * n, n, n, n];
            for length in [0, 1, n - 1, n + 1, 2 * n, n * n - 1, n * n, n * n + 1, 4 * n * n - 1, 4 * n * n + 1, 4 * n * n + 3, 4096, 16384]
            {
                if length == right[buffer] {
                    continue;
                }
                let mut lent = right;
                lent[buffer] = length;
                let [costs, mask, written @ ..] = lent;
                verdicts.push(alike(solvers, &mut random, n, &vec![200; costs], &vec![9; mask], 0, written).and_then(|(answer, _)| {
                    agreed(answer == Answer { number: 3, ..Answer::default() }, 3, || format!("n {n}, lengths {lent:?}: {answer:?}"))
                }));
            }
        }
    }
    verdicts
}

/// Each cell alone with each bad mask byte, and with each cost at and past the limits, allowed and forbidden; then two at once.
fn masks_and_costs(solvers: Solvers) -> Vec<Verdict> {
    let mut random = Random::of(1, 3);
    let (limit, least, most) = (LIMIT as i32, i32::MIN, i32::MAX);
    let mut verdicts = vec![];
    for n in [1, 2, 3, 4, 5, 6, 64] {
        let cells = n * n;
        for q in (0..cells).step_by(if n == 64 { 117 } else { 1 }) {
            for byte in [2, 3, 127, 128, 255] {
                // The cost before it is out of range, and the last mask byte is bad too: the mask comes first, and its lowest place.
                let (mut costs, mut mask) = (vec![0; cells], vec![1; cells]);
                costs[0] = most;
                mask[cells - 1] = 2;
                mask[q] = byte;
                verdicts.push(refusal(solvers, &mut random, n, &costs, &mask, 4, q));
            }
            for cost in [limit + 1, -limit - 1, least, most] {
                let (mut costs, mut mask) = (vec![0; cells], vec![1; cells]);
                costs[cells - 1] = least;
                costs[q] = cost;
                verdicts.push(refusal(solvers, &mut random, n, &costs, &mask, 5, q));
                // Forbidden, it is not looked at.
                costs[cells - 1] = 0;
                costs[q] = cost;
                mask[q] = 0;
                let case = Case { n, costs, mask, budget: enough(n) };
                verdicts
                    .push(answered(solvers, &mut random, &case).and_then(|(answer, buffers)| same_as_watched(&case, &answer, &buffers)));
            }
            for cost in [limit, -limit] {
                let mut costs = vec![0; cells];
                costs[q] = cost;
                let case = Case { n, costs, mask: vec![1; cells], budget: enough(n) };
                verdicts
                    .push(answered(solvers, &mut random, &case).and_then(|(answer, buffers)| same_as_watched(&case, &answer, &buffers)));
            }
        }
    }
    verdicts
}

/// At every size the matrix that reaches all three ceilings, and the chain that reaches the greatest prices.
fn worst_cases(solvers: Solvers) -> Vec<Verdict> {
    let mut random = Random::of(1, 4);
    let mut verdicts = vec![];
    for n in 1..=64 {
        let costs = (0..n * n).map(|q| ((q / n + 1) * (q % n + 1)) as i32).collect();
        let case = Case { n, costs, mask: vec![1; n * n], budget: enough(n) };
        verdicts.push(answered(solvers, &mut random, &case).and_then(|(answer, buffers)| {
            let counts = [answer.adjustments, answer.primes + 1, answer.augmentations + 1];
            let ceilings = [n * (n - 1) / 2, n * (n + 1) / 2, n].map(|count| count as u32);
            agreed(counts == ceilings, 0, || format!("n {n}, (i+1)(j+1): {answer:?}"))?;
            same_as_watched(&case, &answer, &buffers)
        }));

        // Cells (i, i) = -limit and (i, i+1) = +limit are allowed, and of the last row column 0 alone, at -limit.
        let last = n - 1;
        let allowed = |i: usize, j: usize| if i < last { j == i || j == i + 1 } else { j == 0 };
        let costs = (0..n * n).map(|q| if q % n == q / n + 1 { LIMIT as i32 } else { -LIMIT as i32 }).collect();
        let mask = (0..n * n).map(|q| allowed(q / n, q % n) as u8).collect();
        let case = Case { n, costs, mask, budget: enough(n) };
        verdicts.push(answered(solvers, &mut random, &case).and_then(|(answer, buffers)| {
            let greatest = *buffers.column_prices.lent().iter().max().unwrap();
            agreed(greatest == 2 * LIMIT * last as i64, 0, || format!("n {n}, chain: greatest price {greatest}"))?;
            same_as_watched(&case, &answer, &buffers)
        }));
    }
    verdicts
}

/// The matrices on which the crate's i32 run wraps: at n = 3 its pairing is still least, at n = 5 it is not.
fn wrapped(solvers: Solvers) -> Vec<Verdict> {
    let mut random = Random::of(1, 5);
    let g = LIMIT.to_string();
    let mut verdicts = vec![];
    #[rustfmt::skip]
    let table: &[(&str, &[u16], &[u16], i64)] = &[
        ("G -G -G / -G 0 0 / -G 0 0", &[2, 1, 0], &[2, 1, 0], -2 * LIMIT),
        ("0 -G 0 G 0 / 0 0 0 0 -G / 0 -G 0 G 0 / -G 0 -G 0 G / 0 -G 0 G 0", &[2, 3, 1, 4, 0], &[3, 4, 1, 2, 0], -2 * LIMIT),
    ];
    for &(text, crates, ours, total) in table {
        let case = case(&text.replace('G', &g), u32::MAX);
        verdicts.push(answered(solvers, &mut random, &case).and_then(|(answer, buffers)| {
            agreed(wraps(case.n, &case.costs), 0, || format!("{text}: the checked build does not panic"))?;
            let pairs = solve_assignment(&mut WeightMatrix::from_row_vec(case.n, case.costs.clone())).unwrap();
            agreed(chosen(&pairs) == crates, 0, || format!("{text}: the crate's columns are {:?}", chosen(&pairs)))?;
            let columns = buffers.columns.lent();
            agreed(columns == ours && answer.total == total, 0, || format!("{text}: ours are {columns:?}, {answer:?}"))
        }));
    }
    verdicts
}
