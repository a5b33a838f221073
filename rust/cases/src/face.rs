//! The case reader's C face: the records, and the calls. The model can stand in the library's place.
use crate::model::{self, ROOM};

/// What `serbihun_hut` answers where a hut is absent.
pub const ABSENT: u32 = 65_536;

#[repr(C)]
#[derive(Debug, Clone, Copy, PartialEq, Eq)]
pub struct Case {
    pub number: u32,
    pub place: usize,
    pub n: usize,
    pub window: u32,
}

#[repr(C)]
#[derive(Debug, Clone, Copy, PartialEq, Eq)]
pub struct Record {
    pub number: u32,
    pub start: usize,
    pub length: usize,
}

/// A reader: a file into a room, the hut of a row, the record at an offset.
#[derive(Clone, Copy)]
pub struct Reader {
    pub read_case: fn(&[u8], &mut [i32], &mut [u8]) -> Case,
    pub hut: fn(&[u8], usize) -> u32,
    pub record: fn(&[u8], usize) -> Record,
}

pub const MODEL: Reader = Reader { read_case, hut, record };

/// What a file in a room of these lengths comes to.
pub fn case_of(read: &Result<model::Accepted, model::Refusal>, costs: usize, mask: usize) -> Case {
    if (costs, mask) != (ROOM, ROOM) {
        return Case { number: model::WRONG_ROOM, place: 0, n: 0, window: 0 };
    }
    match read {
        Ok(case) => Case { number: model::ACCEPTED, place: 0, n: case.n, window: case.window },
        Err(refusal) => Case { number: refusal.number, place: refusal.place, n: 0, window: 0 },
    }
}

fn read_case(file: &[u8], costs: &mut [i32], mask: &mut [u8]) -> Case {
    let read = model::read(file);
    let case = case_of(&read, costs.len(), mask.len());
    if let (model::ACCEPTED, Ok(read)) = (case.number, read) {
        costs[..read.costs.len()].copy_from_slice(&read.costs);
        mask[..read.mask.len()].copy_from_slice(&read.mask);
    }
    case
}

fn hut(file: &[u8], row: usize) -> u32 {
    model::read(file).ok().and_then(|case| case.huts.get(row).map(|&hut| hut as u32)).unwrap_or(ABSENT)
}

pub fn record(file: &[u8], at: usize) -> Record {
    match model::stands_at(file, at) {
        Ok(body) => Record { number: model::ACCEPTED, start: body.start, length: body.len() },
        Err(number) => Record { number, start: 0, length: 0 },
    }
}

/// What `serbihun_pair_case` answers.
#[repr(C)]
#[derive(Debug, Clone, Copy, PartialEq, Eq, Default)]
pub struct Pairs {
    pub number: u32,
    pub place: usize,
    pub n: usize,
    pub window: u32,
    pub total: i64,
    pub block_rows: u64,
    pub block_columns: u64,
}

/// What it is lent beside the file.
pub struct Loan<'a> {
    pub costs: &'a mut [i32],
    pub mask: &'a mut [u8],
    pub working: &'a mut [i64],
    pub marks: &'a mut [u8],
    pub columns: &'a mut [u16],
    pub row_prices: &'a mut [i64],
    pub column_prices: &'a mut [i64],
    pub huts: &'a mut [u16],
}

/// What the solver says of a case, at a budget that is always enough: its number, the total, the columns.
pub struct Solved {
    pub number: u32,
    pub total: i64,
    pub columns: Vec<u16>,
}

pub type Solver = fn(&model::Accepted) -> Solved;

/// The library's functions. `solve_by_steps` solves the case of n rows that costs and mask hold, on buffers of its lengths.
#[derive(Clone, Copy)]
pub struct Library {
    pub reader: Reader,
    pub solve: Solver,
    pub pair_case: fn(&[u8], Loan) -> Pairs,
    pub solve_by_steps: fn(usize, Loan) -> Pairs,
}

/// The linked library; none where libserbihun.a was not there to be linked.
#[cfg(not(library))]
pub const LINKED: Option<Library> = None;
#[cfg(library)]
pub const LINKED: Option<Library> =
    Some(Library { reader: linked::READER, solve: linked::solve, pair_case: linked::pair_case, solve_by_steps: linked::solve_by_steps });

#[cfg(library)]
mod linked {
    use super::{Case, Loan, Pairs, Reader, Record, Solved};
    use crate::model::Accepted;

    pub const READER: Reader = Reader { read_case, hut, record };

    #[repr(C)]
    #[allow(dead_code)]
    struct Answer {
        number: u32,
        place: usize,
        total: i64,
        adjustments: u32,
        primes: u32,
        augmentations: u32,
        block_rows: u64,
        block_columns: u64,
    }

    // Every slice crosses as pointer and length.
    #[rustfmt::skip]
    extern "C" {
        fn serbihun_read_case(
            file: *const u8, file_length: usize, costs: *mut i32, costs_length: usize, mask: *mut u8, mask_length: usize,
        ) -> Case;
        fn serbihun_hut(file: *const u8, file_length: usize, row: usize) -> u32;
        fn serbihun_record(file: *const u8, file_length: usize, at: usize) -> Record;
        fn serbihun_pair_case(
            file: *const u8, file_length: usize, costs: *mut i32, costs_length: usize, mask: *mut u8, mask_length: usize,
            working: *mut i64, working_length: usize, marks: *mut u8, marks_length: usize, columns: *mut u16, columns_length: usize,
            row_prices: *mut i64, row_prices_length: usize, column_prices: *mut i64, column_prices_length: usize,
            huts: *mut u16, huts_length: usize,
        ) -> Pairs;
        fn serbihun_solve_by_steps(
            n: usize, costs: *const u8, costs_length: usize, mask: *const u8, mask_length: usize, budget: u32,
            working: *mut i64, working_length: usize, marks: *mut u8, marks_length: usize, columns: *mut u16, columns_length: usize,
            row_prices: *mut i64, row_prices_length: usize, column_prices: *mut i64, column_prices_length: usize,
        ) -> Answer;
        fn serbihun_solve(
            n: usize, costs: *const u8, costs_length: usize, mask: *const u8, mask_length: usize, budget: u32,
            working: *mut i64, working_length: usize, marks: *mut u8, marks_length: usize, columns: *mut u16, columns_length: usize,
            row_prices: *mut i64, row_prices_length: usize, column_prices: *mut i64, column_prices_length: usize,
        ) -> Answer;
    }

    // SAFETY, of each call below: each pointer and length is a live slice, and no two of them overlap.
    fn read_case(file: &[u8], costs: &mut [i32], mask: &mut [u8]) -> Case {
        unsafe { serbihun_read_case(file.as_ptr(), file.len(), costs.as_mut_ptr(), costs.len(), mask.as_mut_ptr(), mask.len()) }
    }

    fn hut(file: &[u8], row: usize) -> u32 {
        unsafe { serbihun_hut(file.as_ptr(), file.len(), row) }
    }

    fn record(file: &[u8], at: usize) -> Record {
        unsafe { serbihun_record(file.as_ptr(), file.len(), at) }
    }

    #[rustfmt::skip]
    pub fn solve(case: &Accepted) -> Solved {
        let n = case.n;
        let costs: Vec<u8> = case.costs.iter().flat_map(|cost| cost.to_le_bytes()).collect();
        let (mut working, mut marks, mut columns) = (vec![0; n * n], vec![0; n * n], vec![0; n]);
        let (mut row_prices, mut column_prices) = (vec![0; n], vec![0; n]);
        let answer = unsafe {
            serbihun_solve(
                n, costs.as_ptr(), costs.len(), case.mask.as_ptr(), case.mask.len(), (n * (n - 1) / 2) as u32,
                working.as_mut_ptr(), working.len(), marks.as_mut_ptr(), marks.len(), columns.as_mut_ptr(), columns.len(),
                row_prices.as_mut_ptr(), row_prices.len(), column_prices.as_mut_ptr(), column_prices.len(),
            )
        };
        Solved { number: answer.number, total: answer.total, columns }
    }

    #[rustfmt::skip]
    pub fn pair_case(file: &[u8], loan: Loan) -> Pairs {
        let Loan { costs, mask, working, marks, columns, row_prices, column_prices, huts } = loan;
        unsafe {
            serbihun_pair_case(
                file.as_ptr(), file.len(), costs.as_mut_ptr(), costs.len(), mask.as_mut_ptr(), mask.len(),
                working.as_mut_ptr(), working.len(), marks.as_mut_ptr(), marks.len(), columns.as_mut_ptr(), columns.len(),
                row_prices.as_mut_ptr(), row_prices.len(), column_prices.as_mut_ptr(), column_prices.len(),
                huts.as_mut_ptr(), huts.len(),
            )
        }
    }

    #[rustfmt::skip]
    pub fn solve_by_steps(n: usize, loan: Loan) -> Pairs {
        let Loan { costs, mask, working, marks, columns, row_prices, column_prices, .. } = loan;
        let bytes: Vec<u8> = costs.iter().flat_map(|cost| cost.to_le_bytes()).collect();
        let answer = unsafe {
            serbihun_solve_by_steps(
                n, bytes.as_ptr(), bytes.len(), mask.as_ptr(), mask.len(), (n * (n - 1) / 2) as u32,
                working.as_mut_ptr(), working.len(), marks.as_mut_ptr(), marks.len(), columns.as_mut_ptr(), columns.len(),
                row_prices.as_mut_ptr(), row_prices.len(), column_prices.as_mut_ptr(), column_prices.len(),
            )
        };
        let Answer { number, total, block_rows, block_columns, .. } = answer;
        Pairs { number, total, block_rows, block_columns, ..Pairs::default() }
    }
}
