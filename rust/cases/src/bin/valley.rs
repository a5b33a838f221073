//! Feeds case files to the program target/bin/valley and compares every byte that it prints: valley [SEED]
//!
//! The reader's part of what must be printed comes from the model, the columns from the solver, which all permutations check at
//! n up to 7. The last line is 'N passed, M failed'; any failure gives exit status 1.
use cases::face::{Solver, LINKED};
use cases::model::{self, Accepted};
use cases::program::{same, try_program};

/// The greatest n at which all permutations are tried.
const SMALL: usize = 7;

/// The least total over all permutations of the rows from `row` on; none where there is no allowed one.
fn least(case: &Accepted, row: usize, taken: u32) -> Option<i64> {
    if row == case.n {
        return Some(0);
    }
    let cell = |column: usize| row * case.n + column;
    let open = (0..case.n).filter(|&column| taken >> column & 1 == 0 && case.mask[cell(column)] == 1);
    open.filter_map(|column| Some(case.costs[cell(column)] as i64 + least(case, row + 1, taken | 1 << column)?)).min()
}

fn judge(file: &[u8], printed: &str, solver: Solver) -> Result<&'static str, String> {
    let case = match model::read(file) {
        Err(refusal) => return same(printed, &format!("REFUSED {} AT {}\n", refusal.number, refusal.place), "REFUSED"),
        Ok(case) => case,
    };
    let solved = solver(&case);
    let total = match solved.number {
        0 => Some(solved.total),
        6 => None,
        number => return Err(format!("the solver answers {number}")),
    };
    if case.n <= SMALL && total != least(&case, 0, 0) {
        return Err(format!("the solver's total {total:?} is not the least one"));
    }
    let Some(total) = total else { return same(printed, "NO PAIRING\n", "NO PAIRING") };
    let rows: String = case.huts.iter().zip(&solved.columns).map(|(hut, column)| format!("{hut} {column}\n")).collect();
    same(printed, &format!("{rows}TOTAL {total}\n"), "paired")
}

fn main() {
    let Some(library) = LINKED else {
        println!("valley: libserbihun.a was not there to be linked, nothing is compared\n0 passed, 1 failed");
        std::process::exit(1);
    };
    try_program("target/bin/valley", &[], |file, printed| judge(file, &printed[0], library.solve));
}
