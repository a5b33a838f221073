//! The solver: what is lent to it, and what it answers.
use crate::{c, LIMIT, ROOM};

/// What a call may write. Each must have exactly its length, as [`Room::lend`] makes it.
///
/// Cell (i, j) of a table is element `i * n + j`. Whenever the steps ran, an allowed cell's cost is its row's price, its
/// column's price and its working value together.
#[derive(Debug, PartialEq, Eq)]
pub struct Buffers<'a> {
    /// n n: what each allowed cell costs above its two prices.
    pub working: &'a mut [i64],
    /// n n: 0 for none, 1 for a star, 2 for a prime.
    pub marks: &'a mut [u8],
    /// n: the column of each row, where the answer is [`Answer::Paired`]; else as it was.
    pub columns: &'a mut [u16],
    /// n.
    pub row_prices: &'a mut [i64],
    /// n.
    pub column_prices: &'a mut [i64],
}

/// Room for the buffers of any n up to [`LIMIT`], of which a call writes the front: some 38 KB.
#[derive(Clone, Debug, PartialEq, Eq)]
pub struct Room {
    /// See [`Buffers::working`].
    pub working: [i64; ROOM],
    /// See [`Buffers::marks`].
    pub marks: [u8; ROOM],
    /// See [`Buffers::columns`].
    pub columns: [u16; LIMIT],
    /// See [`Buffers::row_prices`].
    pub row_prices: [i64; LIMIT],
    /// See [`Buffers::column_prices`].
    pub column_prices: [i64; LIMIT],
}

impl Room {
    /// All 0.
    pub const fn new() -> Room {
        Room {
            working: [0; ROOM],
            marks: [0; ROOM],
            columns: [0; LIMIT],
            row_prices: [0; LIMIT],
            column_prices: [0; LIMIT],
        }
    }

    /// The buffers of n rows, in the front of the room. Above [`LIMIT`] it is the whole room, and n is refused anyway.
    pub fn lend(&mut self, n: usize) -> Buffers<'_> {
        let lines = if n < LIMIT { n } else { LIMIT };
        Buffers {
            working: &mut self.working[..lines * lines],
            marks: &mut self.marks[..lines * lines],
            columns: &mut self.columns[..lines],
            row_prices: &mut self.row_prices[..lines],
            column_prices: &mut self.column_prices[..lines],
        }
    }
}

impl Default for Room {
    fn default() -> Room {
        Room::new()
    }
}

/// How much work the steps did.
#[derive(Clone, Copy, Debug, PartialEq, Eq)]
pub struct Counts {
    /// How often prices were adjusted: at most n (n - 1) / 2.
    pub adjustments: u32,
    /// How many zeros were primed: at most n (n + 1) / 2 - 1.
    pub primes: u32,
    /// How often a star was added along a path: at most n - 1.
    pub augmentations: u32,
}

/// What came of a call. The refusals 1 to 5 are tried in their order.
#[derive(Clone, Copy, Debug, PartialEq, Eq)]
pub enum Answer {
    /// 0: the columns are an allowed pairing, and none has a smaller total.
    Paired {
        /// The cost of the pairing.
        total: i64,
        /// The work that it took.
        counts: Counts,
    },
    /// 1: n is 0.
    Empty,
    /// 2: n is above [`LIMIT`].
    TooLarge,
    /// 3: the costs, the mask or a buffer has not exactly its length.
    WrongLength,
    /// 4: a mask byte is above 1.
    BadMask {
        /// The lowest such cell.
        place: usize,
    },
    /// 5: the cost of an allowed cell is not within -1,000,000,000 and 1,000,000,000.
    BadCost {
        /// The lowest such cell.
        place: usize,
    },
    /// 6: no allowed pairing exists, for in these rows these columns are all forbidden, and together they are more than n
    /// lines. See [`lines`].
    NoPairing {
        /// The rows of the block.
        rows: u64,
        /// Its columns.
        columns: u64,
        /// The work that it took.
        counts: Counts,
    },
    /// 7: the budget is spent. Never where it is [`enough`].
    Unfinished {
        /// The work that was done.
        counts: Counts,
    },
}

impl From<c::Answer> for Answer {
    fn from(answer: c::Answer) -> Answer {
        let place = answer.place;
        let counts = Counts {
            adjustments: answer.adjustments,
            primes: answer.primes,
            augmentations: answer.augmentations,
        };
        match answer.number {
            0 => Answer::Paired {
                total: answer.total,
                counts,
            },
            1 => Answer::Empty,
            2 => Answer::TooLarge,
            3 => Answer::WrongLength,
            4 => Answer::BadMask { place },
            5 => Answer::BadCost { place },
            6 => Answer::NoPairing {
                rows: answer.block_rows,
                columns: answer.block_columns,
                counts,
            },
            7 => Answer::Unfinished { counts },
            other => unreachable!("the answers are 0 to 7, and not {other}"),
        }
    }
}

/// A budget that always suffices: n (n - 1) / 2 adjustments.
pub const fn enough(n: usize) -> u32 {
    if n == 0 || LIMIT < n {
        return 0;
    }
    (n * (n - 1) / 2) as u32
}

/// The lines of a set, in order: bit i is line i.
pub fn lines(set: u64) -> impl Iterator<Item = usize> {
    (0..LIMIT).filter(move |line| set >> line & 1 == 1)
}

/// Pairs n rows with n columns at least total cost, with at most `budget` adjustments of the prices.
///
/// `mask` is 1 where row and column may be paired and 0 where not. A forbidden cell's cost is not looked at.
pub fn solve(n: usize, costs: &[i32], mask: &[u8], budget: u32, buffers: Buffers<'_>) -> Answer {
    c::solve(n, costs, mask, budget, buffers).into()
}

/// The same answer and the same bytes, by the solver that goes step by step: slower, and there to be watched.
pub fn solve_by_steps(
    n: usize,
    costs: &[i32],
    mask: &[u8],
    budget: u32,
    buffers: Buffers<'_>,
) -> Answer {
    c::solve_by_steps(n, costs, mask, budget, buffers).into()
}
