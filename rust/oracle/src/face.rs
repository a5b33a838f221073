//! The solver's C face: the answer record, the lent buffers, and the call.

/// The greatest size, and the greatest allowed cost either side of 0.
pub const MOST: usize = 64;
pub const LIMIT: i64 = 1_000_000_000;

#[repr(C)]
#[derive(Debug, Clone, Copy, PartialEq, Eq, Default)]
pub struct Answer {
    pub number: u32,
    pub place: usize,
    pub total: i64,
    pub adjustments: u32,
    pub primes: u32,
    pub augmentations: u32,
    pub block_rows: u64,
    pub block_columns: u64,
}

/// The buffers that a call writes.
pub struct Lent<'a> {
    pub working: &'a mut [i64],
    pub marks: &'a mut [u8],
    pub columns: &'a mut [u16],
    pub row_prices: &'a mut [i64],
    pub column_prices: &'a mut [i64],
}

/// A solver: size, costs as four little-endian bytes each, mask, budget, buffers.
pub type Solver = fn(usize, &[u8], &[u8], u32, Lent) -> Answer;

/// Solvers, each with its name.
pub type Solvers = &'static [(&'static str, Solver)];

/// The linked solvers: the quick one, and the port by its steps; none where libserbihun.a was not there to be linked.
#[cfg(not(solver))]
pub const LINKED: Solvers = &[];
#[cfg(solver)]
pub const LINKED: Solvers = &[("quick", linked::solve), ("by steps", linked::solve_by_steps)];

pub fn names(solvers: Solvers) -> String {
    let names: Vec<&str> = solvers.iter().map(|(name, _)| *name).collect();
    names.join(" and ")
}

#[cfg(solver)]
mod linked {
    use super::{Answer, Lent};

    // An entry of the library as a solver. Every slice crosses as pointer and length.
    #[rustfmt::skip]
    macro_rules! solver {
        ($name:ident, $entry:ident) => {
            pub fn $name(n: usize, costs: &[u8], mask: &[u8], budget: u32, lent: Lent) -> Answer {
                extern "C" {
                    fn $entry(
                        n: usize, costs: *const u8, costs_length: usize, mask: *const u8, mask_length: usize, budget: u32,
                        working: *mut i64, working_length: usize, marks: *mut u8, marks_length: usize, columns: *mut u16, columns_length: usize,
                        row_prices: *mut i64, row_prices_length: usize, column_prices: *mut i64, column_prices_length: usize,
                    ) -> Answer;
                }
                let Lent { working, marks, columns, row_prices, column_prices } = lent;
                // SAFETY: each pointer and length is a live slice, and no two of them overlap.
                unsafe {
                    $entry(
                        n, costs.as_ptr(), costs.len(), mask.as_ptr(), mask.len(), budget,
                        working.as_mut_ptr(), working.len(), marks.as_mut_ptr(), marks.len(), columns.as_mut_ptr(), columns.len(),
                        row_prices.as_mut_ptr(), row_prices.len(), column_prices.as_mut_ptr(), column_prices.len(),
                    )
                }
            }
        };
    }

    solver!(solve, serbihun_solve);
    solver!(solve_by_steps, serbihun_solve_by_steps);
}
