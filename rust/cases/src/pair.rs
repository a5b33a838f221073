//! A file paired in one call: the answer, every byte that is lent, and the guard zones about it, held against the model's reading and the
//! solver by its steps.
use crate::check::Verdict;
use crate::face::{Library, Loan, Pairs};
use crate::model::{self, MOST, ROOM};
use crate::random::Random;

/// The elements that are guarded before and behind what is lent.
const GUARD: usize = 8;

/// The lengths of costs, mask, working values, marks, columns, row prices, column prices and huts; those that are right, but for the huts,
/// which may have any.
pub type Lengths = [usize; 8];
pub const RIGHT: Lengths = [ROOM, ROOM, ROOM, ROOM, MOST, MOST, MOST, MOST];

#[derive(Clone, PartialEq)]
struct Room {
    costs: Vec<i32>,
    mask: Vec<u8>,
    working: Vec<i64>,
    marks: Vec<u8>,
    columns: Vec<u16>,
    row_prices: Vec<i64>,
    column_prices: Vec<i64>,
    huts: Vec<u16>,
}

impl Room {
    /// Random contents.
    fn new(random: &mut Random, lengths: Lengths) -> Room {
        let mut longs = |at: usize| -> Vec<i64> { (0..GUARD + lengths[at] + GUARD).map(|_| random.next() as i64).collect() };
        Room {
            costs: longs(0).iter().map(|&x| x as i32).collect(),
            mask: longs(1).iter().map(|&x| x as u8).collect(),
            working: longs(2),
            marks: longs(3).iter().map(|&x| x as u8).collect(),
            columns: longs(4).iter().map(|&x| x as u16).collect(),
            row_prices: longs(5),
            column_prices: longs(6),
            huts: longs(7).iter().map(|&x| x as u16).collect(),
        }
    }

    fn lend(&mut self, lengths: Lengths) -> Loan<'_> {
        Loan {
            costs: &mut self.costs[GUARD..][..lengths[0]],
            mask: &mut self.mask[GUARD..][..lengths[1]],
            working: &mut self.working[GUARD..][..lengths[2]],
            marks: &mut self.marks[GUARD..][..lengths[3]],
            columns: &mut self.columns[GUARD..][..lengths[4]],
            row_prices: &mut self.row_prices[GUARD..][..lengths[5]],
            column_prices: &mut self.column_prices[GUARD..][..lengths[6]],
            huts: &mut self.huts[GUARD..][..lengths[7]],
        }
    }
}

/// What must be answered and left: the file as the model reads it, in the front of the room, and solved there.
fn wanted(library: Library, file: &[u8], lengths: Lengths, room: &mut Room) -> Pairs {
    if lengths[..7] != RIGHT[..7] {
        return Pairs { number: model::WRONG_ROOM, ..Pairs::default() };
    }
    match model::read(file) {
        Err(refusal) => Pairs { number: refusal.number, place: refusal.place, ..Pairs::default() },
        Ok(case) => {
            let (n, cells) = (case.n, case.n * case.n);
            let loan = room.lend([cells, cells, cells, cells, n, n, n, n.min(lengths[7])]);
            loan.costs.copy_from_slice(&case.costs);
            loan.mask.copy_from_slice(&case.mask);
            loan.huts.copy_from_slice(&case.huts[..n.min(lengths[7])]);
            Pairs { n, window: case.window, ..(library.solve_by_steps)(n, loan) }
        }
    }
}

/// Pairs a file on room of these lengths.
pub fn check(library: Library, random: &mut Random, file: &[u8], lengths: Lengths) -> Verdict {
    let mut room = Room::new(random, lengths);
    let mut expected = room.clone();
    let wanted = wanted(library, file, lengths, &mut expected);
    let got = (library.pair_case)(file, room.lend(lengths));
    if got != wanted {
        return Err(format!("paired on {lengths:?}: {got:?}, and not {wanted:?}"));
    }
    if room != expected {
        return Err(format!("paired on {lengths:?}: a buffer differs at {}", got.number));
    }
    Ok(got.number)
}

/// Right lengths three times in four; else one of them is another, the huts' among them.
pub fn lengths(random: &mut Random) -> Lengths {
    let mut lengths = RIGHT;
    if random.below(4) == 0 {
        let at = random.below(8);
        lengths[at] = match random.below(4) {
            0 => 0,
            1 => lengths[at] - 1,
            2 => lengths[at] + 1,
            _ => random.below(lengths[at]),
        };
    }
    lengths
}
