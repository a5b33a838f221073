//! Weights that watch the crate: what it adds, subtracts and looks at gives prices, counts and block, so that these too are the crate's.
use munkres::{solve_assignment, Error, Position, WeightMatrix, WeightNum, Weights};
use std::cell::{Cell, RefCell};
use std::ops::{Add, Sub};
use std::panic::{catch_unwind, resume_unwind, AssertUnwindSafe};

/// A weight that may be forbidden: the greatest number of its type, which the crate is told is not valid.
macro_rules! masked {
    ($name:ident, $number:ty) => {
        #[derive(Debug, Clone, Copy, PartialEq, PartialOrd)]
        pub struct $name(pub $number);

        impl $name {
            pub fn of(cost: i32, allowed: bool) -> Self {
                $name(if allowed { cost as $number } else { <$number>::MAX })
            }
        }

        impl Add for $name {
            type Output = Self;
            #[inline]
            fn add(self, other: Self) -> Self {
                $name(self.0 + other.0)
            }
        }

        impl Sub for $name {
            type Output = Self;
            #[inline]
            fn sub(self, other: Self) -> Self {
                $name(self.0 - other.0)
            }
        }

        impl WeightNum for $name {
            #[inline]
            fn is_zero(&self) -> bool {
                self.0 == 0
            }
            #[inline]
            fn is_valid(&self) -> bool {
                self.0 != <$number>::MAX
            }
        }
    };
}
masked!(Masked32, i32);
masked!(Masked64, i64);

/// Where the crate is. It asks for n once at the beginning of steps 2, 3, 4 and 6, and that is how it is known.
#[derive(Clone, Copy, PartialEq)]
enum Stage {
    Start,
    Priced,
    Starring,
    Searching,
}

struct Watch {
    weights: WeightMatrix<Masked64>,
    budget: u32,
    row_prices: Vec<i64>,
    column_prices: Vec<i64>,
    adjustments: u32,
    stage: Cell<Stage>,
    /// Whether the last cell asked about was a zero.
    hit: Cell<bool>,
    primes: Cell<u32>,
    primed: RefCell<Vec<usize>>,
    augmentations: Cell<u32>,
    /// The lines of the cells that step 6 looked at: the uncovered ones.
    rows: Cell<u64>,
    columns: Cell<u64>,
}

/// What is thrown through the crate when the budget is spent.
struct Spent;

impl Watch {
    /// Called by each change of step 6; the first one after a look at the cells begins an adjustment.
    fn adjusting(&mut self) {
        if self.rows.take() != 0 {
            self.columns.set(0);
            if self.adjustments == self.budget {
                resume_unwind(Box::new(Spent));
            }
            self.adjustments += 1;
        }
    }
}

impl Weights for Watch {
    type T = Masked64;

    fn n(&self) -> usize {
        match self.stage.get() {
            Stage::Start => {}
            Stage::Priced => self.stage.set(Stage::Starring),
            Stage::Starring => self.stage.set(Stage::Searching),
            // Step 4 ended with a zero: step 5 has been, and step 3 asks.
            Stage::Searching if self.hit.get() => {
                self.augmentations.set(self.augmentations.get() + 1);
                self.primed.borrow_mut().clear();
            }
            Stage::Searching => {}
        }
        self.hit.set(false);
        self.weights.n()
    }

    /// Step 6 alone asks for an element.
    fn element_at(&self, pos: Position) -> Masked64 {
        self.rows.set(self.rows.get() | 1 << pos.row);
        self.columns.set(self.columns.get() | 1 << pos.column);
        self.weights.element_at(pos)
    }

    fn sub_min_of_each_row(&mut self) {
        let n = self.weights.n();
        let before = self.weights.as_slice().to_vec();
        self.weights.sub_min_of_each_row();
        let after = self.weights.as_slice();
        self.row_prices = (0..n)
            .map(|row| {
                let q = (row * n..row * n + n).find(|&q| before[q].is_valid()).unwrap();
                before[q].0 - after[q].0
            })
            .collect();
        self.column_prices = vec![0; n];
        self.stage.set(Stage::Priced);
    }

    fn add_row(&mut self, row: usize, val: Masked64) {
        self.adjusting();
        self.row_prices[row] -= val.0;
        self.weights.add_row(row, val);
    }

    fn sub_column(&mut self, col: usize, val: Masked64) {
        self.adjusting();
        self.column_prices[col] += val.0;
        self.weights.sub_column(col, val);
    }

    fn is_element_zero(&self, pos: Position) -> bool {
        let zero = self.weights.is_element_zero(pos);
        if zero && self.stage.get() == Stage::Searching {
            self.primes.set(self.primes.get() + 1);
            self.primed.borrow_mut().push(pos.row * self.weights.n() + pos.column);
        }
        self.hit.set(zero);
        zero
    }

    fn is_solvable(&self) -> bool {
        self.weights.is_solvable()
    }
}

/// What was seen of one run of the crate.
pub struct Watched {
    /// 0 paired, 6 not solvable, 7 stopped at the budget.
    pub number: u32,
    /// The chosen columns; none but at 0.
    pub columns: Vec<u16>,
    /// Whether the steps began at all; if not, all that follows is empty.
    pub began: bool,
    pub adjustments: u32,
    pub primes: u32,
    pub augmentations: u32,
    pub row_prices: Vec<i64>,
    pub column_prices: Vec<i64>,
    /// The final weights, 0 in forbidden cells.
    pub working: Vec<i64>,
    /// The primed places of the last phase, upwards.
    pub primed: Vec<usize>,
    pub block_rows: u64,
    pub block_columns: u64,
}

/// Runs the crate over 64-bit weights with a mask, until it ends or has made `budget` adjustments and is about to make another.
pub fn watch(n: usize, costs: &[i32], mask: &[u8], budget: u32) -> Watched {
    let cells: Vec<Masked64> = costs.iter().zip(mask).map(|(&cost, &bit)| Masked64::of(cost, bit == 1)).collect();
    let mut watch = Watch {
        weights: WeightMatrix::from_row_vec(n, cells),
        budget,
        row_prices: vec![],
        column_prices: vec![],
        adjustments: 0,
        stage: Cell::new(Stage::Start),
        hit: Cell::new(false),
        primes: Cell::new(0),
        primed: RefCell::new(vec![]),
        augmentations: Cell::new(0),
        rows: Cell::new(0),
        columns: Cell::new(0),
    };
    let (number, columns) = match catch_unwind(AssertUnwindSafe(|| solve_assignment(&mut watch))) {
        Ok(Ok(pairs)) => (0, chosen(&pairs)),
        Ok(Err(Error::MatrixNotSolvable)) => (6, vec![]),
        Ok(Err(Error::NoPrimeInRow)) => panic!("the crate found no prime in a row"),
        Err(panic) if panic.is::<Spent>() => (7, vec![]),
        Err(panic) => resume_unwind(panic),
    };
    let began = watch.stage.get() != Stage::Start;
    let working = |weight: &Masked64| if weight.is_valid() { weight.0 } else { 0 };
    let mut primed = watch.primed.take();
    primed.sort();
    Watched {
        number,
        columns,
        began,
        adjustments: watch.adjustments,
        primes: watch.primes.get(),
        augmentations: watch.augmentations.get(),
        row_prices: watch.row_prices,
        column_prices: watch.column_prices,
        working: if began { watch.weights.as_slice().iter().map(working).collect() } else { vec![] },
        primed,
        block_rows: watch.rows.get(),
        block_columns: watch.columns.get(),
    }
}

/// The columns of the crate's pairs, which come row by row.
pub fn chosen(pairs: &[Position]) -> Vec<u16> {
    assert!(pairs.iter().enumerate().all(|(row, pair)| pair.row == row));
    pairs.iter().map(|pair| pair.column as u16).collect()
}
