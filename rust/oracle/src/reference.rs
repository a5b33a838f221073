//! The rules of the solver as a plain program: the refusals in their order, then the six steps. Neither the crate nor the port stands
//! behind it.
use crate::face::{Answer, Lent, Solvers, LIMIT, MOST};

const STAR: u8 = 1;
const PRIME: u8 = 2;

/// The reference where solvers are asked for.
pub const ALONE: Solvers = &[("reference", solve)];

pub fn solve(n: usize, costs: &[u8], mask: &[u8], budget: u32, lent: Lent) -> Answer {
    let refused = |number, place| Answer { number, place, ..Answer::default() };
    if n == 0 {
        return refused(1, 0);
    }
    if n > MOST {
        return refused(2, 0);
    }
    let cells = n * n;
    let of_cells = mask.len() == cells && lent.working.len() == cells && lent.marks.len() == cells;
    let of_lines = lent.columns.len() == n && lent.row_prices.len() == n && lent.column_prices.len() == n;
    if costs.len() != 4 * cells || !of_cells || !of_lines {
        return refused(3, 0);
    }
    if let Some(place) = mask.iter().position(|&byte| byte > 1) {
        return refused(4, place);
    }
    let cost: Vec<i64> = costs.chunks(4).map(|four| i32::from_le_bytes(four.try_into().unwrap()) as i64).collect();
    if let Some(place) = (0..cells).find(|&q| mask[q] == 1 && cost[q].abs() > LIMIT) {
        return refused(5, place);
    }
    if let Some(row) = (0..n).find(|&row| mask[row * n..][..n].iter().all(|&byte| byte == 0)) {
        return Answer { number: 6, block_rows: 1 << row, block_columns: lines(n), ..Answer::default() };
    }
    let mut steps = Steps { n, mask, budget, lent, rows: 0, columns: 0, answer: Answer::default() };
    steps.price_rows(&cost);
    steps.star_zeros();
    steps.run();
    if steps.answer.number == 0 {
        for row in 0..n {
            let column = steps.in_row(row, STAR).unwrap();
            steps.lent.columns[row] = column as u16;
            steps.answer.total += cost[row * n + column];
        }
    }
    steps.answer
}

/// The set of all lines below n.
fn lines(n: usize) -> u64 {
    u64::MAX >> (MOST - n)
}

fn has(set: u64, line: usize) -> bool {
    set >> line & 1 == 1
}

struct Steps<'a> {
    n: usize,
    mask: &'a [u8],
    budget: u32,
    lent: Lent<'a>,
    /// The covered rows and columns.
    rows: u64,
    columns: u64,
    answer: Answer,
}

impl Steps<'_> {
    fn allowed(&self, row: usize, column: usize) -> bool {
        self.mask[row * self.n + column] == 1
    }

    fn zero(&self, row: usize, column: usize) -> bool {
        self.allowed(row, column) && self.lent.working[row * self.n + column] == 0
    }

    fn in_row(&self, row: usize, mark: u8) -> Option<usize> {
        (0..self.n).find(|&column| self.lent.marks[row * self.n + column] == mark)
    }

    fn in_column(&self, column: usize, mark: u8) -> Option<usize> {
        (0..self.n).find(|&row| self.lent.marks[row * self.n + column] == mark)
    }

    /// Step 1.
    fn price_rows(&mut self, cost: &[i64]) {
        let n = self.n;
        self.lent.marks.fill(0);
        self.lent.column_prices.fill(0);
        for row in 0..n {
            let price = (0..n).filter(|&j| self.allowed(row, j)).map(|j| cost[row * n + j]).min().unwrap();
            self.lent.row_prices[row] = price;
            for j in 0..n {
                self.lent.working[row * n + j] = if self.allowed(row, j) { cost[row * n + j] - price } else { 0 };
            }
        }
    }

    /// Step 2.
    fn star_zeros(&mut self) {
        for row in 0..self.n {
            let first = (0..self.n).find(|&column| self.zero(row, column) && self.in_column(column, STAR).is_none());
            if let Some(column) = first {
                self.lent.marks[row * self.n + column] = STAR;
            }
        }
    }

    /// Steps 3 and 4, which call the others.
    fn run(&mut self) {
        'step3: loop {
            for column in 0..self.n {
                if self.in_column(column, STAR).is_some() {
                    self.columns |= 1 << column;
                }
            }
            if self.columns == lines(self.n) {
                return;
            }
            loop {
                let Some((row, column)) = self.first_zero() else {
                    match self.adjust() {
                        0 => continue,
                        end => {
                            self.answer.number = end;
                            return;
                        }
                    }
                };
                self.lent.marks[row * self.n + column] = PRIME;
                self.answer.primes += 1;
                match self.in_row(row, STAR) {
                    Some(star) => {
                        self.rows |= 1 << row;
                        self.columns &= !(1 << star);
                    }
                    None => {
                        self.flip(row, column);
                        continue 'step3;
                    }
                }
            }
        }
    }

    /// The first uncovered zero, column by column and downwards.
    fn first_zero(&self) -> Option<(usize, usize)> {
        for column in (0..self.n).filter(|&column| !has(self.columns, column)) {
            for row in (0..self.n).filter(|&row| !has(self.rows, row)) {
                if self.zero(row, column) {
                    return Some((row, column));
                }
            }
        }
        None
    }

    /// Step 5.
    fn flip(&mut self, row: usize, column: usize) {
        let n = self.n;
        let mut path = vec![row * n + column];
        let mut last = column;
        while let Some(row) = self.in_column(last, STAR) {
            path.push(row * n + last);
            last = self.in_row(row, PRIME).unwrap();
            path.push(row * n + last);
        }
        for place in path {
            self.lent.marks[place] = if self.lent.marks[place] == STAR { 0 } else { STAR };
        }
        self.lent.marks.iter_mut().filter(|mark| **mark == PRIME).for_each(|mark| *mark = 0);
        self.rows = 0;
        self.columns = 0;
        self.answer.augmentations += 1;
    }

    /// Step 6: 0 where the run goes on, else the number of its end.
    fn adjust(&mut self) -> u32 {
        let n = self.n;
        let mut least = None;
        for row in (0..n).filter(|&row| !has(self.rows, row)) {
            for column in (0..n).filter(|&column| !has(self.columns, column) && self.allowed(row, column)) {
                let value = self.lent.working[row * n + column];
                least = Some(least.map_or(value, |m: i64| m.min(value)));
            }
        }
        let Some(least) = least else {
            self.answer.block_rows = lines(n) & !self.rows;
            self.answer.block_columns = lines(n) & !self.columns;
            return 6;
        };
        if self.answer.adjustments == self.budget {
            return 7;
        }
        for row in 0..n {
            let lowered = if has(self.rows, row) { least } else { 0 };
            self.lent.row_prices[row] -= lowered;
            for column in (0..n).filter(|&column| self.mask[row * n + column] == 1) {
                let raised = if has(self.columns, column) { 0 } else { least };
                self.lent.working[row * n + column] += lowered - raised;
            }
        }
        for column in (0..n).filter(|&column| !has(self.columns, column)) {
            self.lent.column_prices[column] += least;
        }
        self.answer.adjustments += 1;
        0
    }
}
