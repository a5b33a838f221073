//! A case file, read and solved in one call.
use crate::{c, CaseRefusal, Room, LIMIT, ROOM};

/// Room for a case: what the reader and the solver write, and the huts. Some 59 KB.
#[derive(Clone, Debug, PartialEq, Eq)]
pub struct CaseRoom {
    /// The first n n are the costs, 0 where forbidden.
    pub costs: [i32; ROOM],
    /// The first n n are 1 where row and column may be paired, 0 where not.
    pub mask: [u8; ROOM],
    /// What the solver left, in the front: of a pairing, row i goes with event `solved.columns[i]`.
    pub solved: Room,
    /// The hut of each row.
    pub huts: [u16; LIMIT],
}

impl CaseRoom {
    /// All 0.
    pub const fn new() -> CaseRoom {
        CaseRoom {
            costs: [0; ROOM],
            mask: [0; ROOM],
            solved: Room::new(),
            huts: [0; LIMIT],
        }
    }
}

impl Default for CaseRoom {
    fn default() -> CaseRoom {
        CaseRoom::new()
    }
}

/// What came of an accepted file.
#[derive(Clone, Copy, Debug, PartialEq, Eq)]
pub enum Pairs {
    /// 0: the columns pair each fragment with an event, and no allowed pairing has a smaller total.
    Paired {
        /// How many fragments and events there are.
        n: usize,
        /// How far apart the clocks of a pair may be, in ms.
        window: u32,
        /// The summed difference of the clocks, in ms.
        total: i64,
    },
    /// 6: no allowed pairing exists, for none of these rows may be paired with any of these columns, and together they are
    /// more than n lines. See [`lines`](crate::lines).
    NoPairing {
        /// How many fragments and events there are.
        n: usize,
        /// How far apart the clocks of a pair may be, in ms.
        window: u32,
        /// The rows of the block.
        rows: u64,
        /// Its columns.
        columns: u64,
    },
}

/// Pairs the fragments of a case file with its events, at least summed difference of their clocks. A refused file leaves the
/// room as it was.
///
/// ```
/// use serbihun::{pair_case, CaseRoom, Pairs};
///
/// let file = [
///     1, 2, 0, 0xE8, 3, 0, 0, // size 2, window 1,000
///     2, 7, 0, 3, 0, 0x88, 0x13, 0, 0, // hut 7, area 3, clock 5,000
///     2, 9, 0, 3, 0, 0x18, 0x15, 0, 0, // hut 9, area 3, clock 5,400
///     3, 3, 0, 0xB4, 0x14, 0, 0, // area 3, clock 5,300
///     3, 3, 0, 0x0C, 0x17, 0, 0, // area 3, clock 5,900
///     4, // end
/// ];
/// let mut room = CaseRoom::new();
/// assert_eq!(pair_case(&file, &mut room)?, Pairs::Paired { n: 2, window: 1000, total: 800 });
/// assert_eq!((room.huts[0], room.solved.columns[0]), (7, 0));
/// assert_eq!((room.huts[1], room.solved.columns[1]), (9, 1));
/// # Ok::<(), serbihun::CaseRefusal>(())
/// ```
pub fn pair_case(file: &[u8], room: &mut CaseRoom) -> Result<Pairs, CaseRefusal> {
    let pairs = c::pair_case(file, room);
    let (n, window) = (pairs.n, pairs.window);
    match pairs.number {
        0 => Ok(Pairs::Paired {
            n,
            window,
            total: pairs.total,
        }),
        6 => Ok(Pairs::NoPairing {
            n,
            window,
            rows: pairs.block_rows,
            columns: pairs.block_columns,
        }),
        number => Err(CaseRefusal::of(number, pairs.place)),
    }
}
