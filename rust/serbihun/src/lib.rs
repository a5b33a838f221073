//! A safe face of a verified solver of the assignment problem: n rows are paired with n columns, each row with an
//! allowed column of its own, at least total cost. It needs no standard library and no heap.
//!
//! ```
//! use serbihun::{enough, solve, Answer, Room};
//!
//! // what each of three workers asks for each of three tasks
//! let costs = [
//!     4, -1, 3, //
//!     2, 0, 5, //
//!     3, 2, -2,
//! ];
//! let mut room = Room::new();
//! let answer = solve(3, &costs, &[1; 9], enough(3), room.lend(3));
//!
//! assert!(matches!(answer, Answer::Paired { total: -1, .. }));
//! assert_eq!(room.columns[..3], [1, 0, 2]);
//! ```
//!
//! And of the case reader: [`pair_case`] pairs the fragments of a case file with its events, [`read_case`] takes costs and
//! mask from it.
#![no_std]
#![deny(missing_docs)]

mod c;
mod case;
mod pair;
mod solve;

pub use case::{hut, read_case, record, Case, CaseRefusal, NoBody};
pub use pair::{pair_case, CaseRoom, Pairs};
pub use solve::{enough, lines, solve, solve_by_steps, Answer, Buffers, Counts, Room};

/// The largest n.
pub const LIMIT: usize = 64;

/// How many cells there are at the largest n: so many costs and so many mask bytes are lent to [`read_case`].
pub const ROOM: usize = LIMIT * LIMIT;
