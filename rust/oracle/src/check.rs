//! Checks an answer by the definition of the assignment problem and by the arithmetic of its price list; no step is repeated here.
use crate::draw::{enough, Buffers, Case};
use crate::face::Answer;

/// Says what is wrong with an answer 0, 6 or 7 to this case, if anything is.
pub fn check(case: &Case, answer: &Answer, buffers: &Buffers) -> Result<(), String> {
    let n = case.n;
    let allowed = |row: usize, column: usize| case.mask[row * n + column] == 1;
    let cost = |row: usize, column: usize| case.costs[row * n + column] as i64;
    let need = |holds: bool, what: &str| if holds { Ok(()) } else { Err(what.to_string()) };

    need(matches!(answer.number, 0 | 6 | 7), "the number")?;
    need(answer.place == 0, "the place")?;
    need(answer.adjustments <= enough(n) && answer.adjustments <= case.budget, "too many adjustments")?;
    need(answer.primes as usize <= n * (n + 1) / 2 - 1, "too many primes")?;
    need((answer.augmentations as usize) < n, "too many augmentations")?;

    // The row test leaves the buffers alone; everywhere else the price list adds up.
    let dead_row = (0..n).any(|row| !(0..n).any(|column| allowed(row, column)));
    let (working, marks) = (buffers.working.lent(), buffers.marks.lent());
    let (row_prices, column_prices) = (buffers.row_prices.lent(), buffers.column_prices.lent());
    if !dead_row {
        for q in 0..n * n {
            let (row, column) = (q / n, q % n);
            if allowed(row, column) {
                need(working[q] >= 0, "a negative working value")?;
                need(cost(row, column) == row_prices[row] + column_prices[column] + working[q], "the price equation")?;
            } else {
                need(working[q] == 0, "the working value of a forbidden cell")?;
            }
            need(marks[q] <= 2, "a mark above 2")?;
            need(marks[q] == 0 || allowed(row, column) && working[q] == 0, "a mark not on a zero")?;
        }
        for line in 0..n {
            need((0..n).filter(|j| marks[line * n + j] == 1).count() <= 1, "two stars in a row")?;
            need((0..n).filter(|i| marks[i * n + line] == 1).count() <= 1, "two stars in a column")?;
        }
    }

    if answer.number == 0 {
        let columns = buffers.columns.lent();
        let mut taken = vec![false; n];
        let mut total = 0;
        for row in 0..n {
            let column = columns[row] as usize;
            need(column < n && !std::mem::replace(&mut taken[column], true), "the columns are no pairing")?;
            need(allowed(row, column), "a chosen cell is forbidden")?;
            need(working[row * n + column] == 0, "a chosen cell's working value is not 0")?;
            need((0..n).all(|j| marks[row * n + j] == (j == column) as u8), "the marks are not the stars chosen")?;
            total += cost(row, column);
        }
        need(answer.total == total, "the total")?;
        need(total == row_prices.iter().chain(column_prices).sum(), "the prices do not add up to the total")?;
    } else {
        need(answer.total == 0, "a total without a pairing")?;
    }

    let in_block = |row: usize, column: usize| answer.block_rows >> row & 1 == 1 && answer.block_columns >> column & 1 == 1;
    if answer.number == 6 {
        need((0..n * n).all(|q| !(in_block(q / n, q % n) && allowed(q / n, q % n))), "an allowed cell in the block")?;
        need((answer.block_rows.count_ones() + answer.block_columns.count_ones()) as usize > n, "the block is too small")?;
        need(n == 64 || (answer.block_rows | answer.block_columns) >> n == 0, "the block has lines past n")?;
    } else {
        need(answer.block_rows == 0 && answer.block_columns == 0, "a block without answer 6")?;
    }
    if answer.number == 7 {
        need(answer.adjustments == case.budget, "unfinished before the budget is spent")?;
        need(case.budget < enough(n), "unfinished with budget enough")?;
    }

    if n <= 7 {
        match (least(case, 0, 0), answer.number) {
            (Some(least), 0) => need(least == answer.total, "the pairing is not least")?,
            (Some(_), 6) => return Err("answer 6 though there is a pairing".to_string()),
            (None, 0) => return Err("answer 0 though there is no pairing".to_string()),
            _ => {}
        }
    }
    Ok(())
}

/// The least total of the rows from `row` on, over all permutations that leave the taken columns out.
fn least(case: &Case, row: usize, taken: u64) -> Option<i64> {
    if row == case.n {
        return Some(0);
    }
    (0..case.n)
        .filter(|&column| taken >> column & 1 == 0 && case.mask[row * case.n + column] == 1)
        .filter_map(|column| Some(case.costs[row * case.n + column] as i64 + least(case, row + 1, taken | 1 << column)?))
        .min()
}
