//! The calls across: the C functions of include/serbihun.h, over slices.
use crate::{Buffers, CaseRoom};

#[cfg(not(all(target_endian = "little", target_pointer_width = "64")))]
compile_error!("a cost in memory must be its little-endian bytes, and a size have 64 bits");

/// Field for field `struct serbihun_answer`.
#[repr(C)]
pub struct Answer {
    pub number: u32,
    pub place: usize,
    pub total: i64,
    pub adjustments: u32,
    pub primes: u32,
    pub augmentations: u32,
    pub block_rows: u64,
    pub block_columns: u64,
}

/// Field for field `struct serbihun_case`.
#[repr(C)]
pub struct Case {
    pub number: u32,
    pub place: usize,
    pub n: usize,
    pub window: u32,
}

/// Field for field `struct serbihun_record`.
#[repr(C)]
pub struct Record {
    pub number: u32,
    pub start: usize,
    pub length: usize,
}

/// Field for field `struct serbihun_pairs`.
#[repr(C)]
pub struct Pairs {
    pub number: u32,
    pub place: usize,
    pub n: usize,
    pub window: u32,
    pub total: i64,
    pub block_rows: u64,
    pub block_columns: u64,
}

extern "C" {
    // each pointer with the number of its elements
    fn serbihun_read_case(
        file: *const u8,
        file_length: usize,
        costs: *mut i32,
        costs_length: usize,
        mask: *mut u8,
        mask_length: usize,
    ) -> Case;

    fn serbihun_hut(file: *const u8, file_length: usize, row: usize) -> u32;

    fn serbihun_record(file: *const u8, file_length: usize, at: usize) -> Record;

    fn serbihun_pair_case(
        file: *const u8,
        file_length: usize,
        costs: *mut i32,
        costs_length: usize,
        mask: *mut u8,
        mask_length: usize,
        working: *mut i64,
        working_length: usize,
        marks: *mut u8,
        marks_length: usize,
        columns: *mut u16,
        columns_length: usize,
        row_prices: *mut i64,
        row_prices_length: usize,
        column_prices: *mut i64,
        column_prices_length: usize,
        huts: *mut u16,
        huts_length: usize,
    ) -> Pairs;
}

/// One of the two solvers, by its entry.
macro_rules! solver {
    ($name:ident, $entry:ident) => {
        pub fn $name(
            n: usize,
            costs: &[i32],
            mask: &[u8],
            budget: u32,
            buffers: Buffers<'_>,
        ) -> Answer {
            extern "C" {
                fn $entry(
                    n: usize,
                    costs: *const u8,
                    costs_length: usize,
                    mask: *const u8,
                    mask_length: usize,
                    budget: u32,
                    working: *mut i64,
                    working_length: usize,
                    marks: *mut u8,
                    marks_length: usize,
                    columns: *mut u16,
                    columns_length: usize,
                    row_prices: *mut i64,
                    row_prices_length: usize,
                    column_prices: *mut i64,
                    column_prices_length: usize,
                ) -> Answer;
            }
            // SAFETY: every pointer comes from a slice with its length, so it is aligned and not null; the five that are
            // written are borrowed for writing. A cost in memory is the four bytes that the function reads.
            unsafe {
                $entry(
                    n,
                    costs.as_ptr().cast::<u8>(),
                    core::mem::size_of_val(costs),
                    mask.as_ptr(),
                    mask.len(),
                    budget,
                    buffers.working.as_mut_ptr(),
                    buffers.working.len(),
                    buffers.marks.as_mut_ptr(),
                    buffers.marks.len(),
                    buffers.columns.as_mut_ptr(),
                    buffers.columns.len(),
                    buffers.row_prices.as_mut_ptr(),
                    buffers.row_prices.len(),
                    buffers.column_prices.as_mut_ptr(),
                    buffers.column_prices.len(),
                )
            }
        }
    };
}

solver!(solve, serbihun_solve);
solver!(solve_by_steps, serbihun_solve_by_steps);

pub fn read_case(file: &[u8], costs: &mut [i32], mask: &mut [u8]) -> Case {
    // SAFETY: every pointer comes from a slice with its length; the two that are written are borrowed for writing.
    unsafe {
        serbihun_read_case(
            file.as_ptr(),
            file.len(),
            costs.as_mut_ptr(),
            costs.len(),
            mask.as_mut_ptr(),
            mask.len(),
        )
    }
}

pub fn hut(file: &[u8], row: usize) -> u32 {
    // SAFETY: the pointer comes from a slice with its length, and nothing is written.
    unsafe { serbihun_hut(file.as_ptr(), file.len(), row) }
}

pub fn record(file: &[u8], at: usize) -> Record {
    // SAFETY: the pointer comes from a slice with its length, and nothing is written.
    unsafe { serbihun_record(file.as_ptr(), file.len(), at) }
}

pub fn pair_case(file: &[u8], room: &mut CaseRoom) -> Pairs {
    let solved = &mut room.solved;
    // SAFETY: every pointer comes from a slice or an array with its length; those that are written are borrowed for writing.
    unsafe {
        serbihun_pair_case(
            file.as_ptr(),
            file.len(),
            room.costs.as_mut_ptr(),
            room.costs.len(),
            room.mask.as_mut_ptr(),
            room.mask.len(),
            solved.working.as_mut_ptr(),
            solved.working.len(),
            solved.marks.as_mut_ptr(),
            solved.marks.len(),
            solved.columns.as_mut_ptr(),
            solved.columns.len(),
            solved.row_prices.as_mut_ptr(),
            solved.row_prices.len(),
            solved.column_prices.as_mut_ptr(),
            solved.column_prices.len(),
            room.huts.as_mut_ptr(),
            room.huts.len(),
        )
    }
}
