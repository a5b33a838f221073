//! The case reader: a case file's costs and mask, the hut of a row, and the body of a record.
use crate::c;
use core::fmt;

/// What a file says beside its costs and mask.
#[derive(Clone, Copy, Debug, PartialEq, Eq)]
pub struct Case {
    /// 1 to [`LIMIT`](crate::LIMIT).
    pub n: usize,
    /// How far apart the clocks of a pair may be, in ms: at most 1,000,000,000.
    pub window: u32,
}

/// Why a file is no case. Records are judged one after another, each by 21, 22, 23, 25, 24, 26 in this order.
///
/// The place is the offset of the record's kind byte: the file's length where there is none.
#[derive(Clone, Copy, Debug, PartialEq, Eq)]
pub enum CaseRefusal {
    /// 20: the costs or the mask have not exactly [`ROOM`](crate::ROOM) elements. The file was not looked at.
    WrongRoom,
    /// 21: the file ends where a kind or body byte is due.
    Cut {
        /// The offset, as above.
        place: usize,
    },
    /// 22: the kind is not 1 to 4.
    UnknownKind {
        /// The offset, as above.
        place: usize,
    },
    /// 23: the first record is not a size, or another one is.
    WrongOrder {
        /// The offset, as above.
        place: usize,
    },
    /// 24: one fragment or event too many, or too few at the end record.
    WrongCount {
        /// The offset, as above.
        place: usize,
    },
    /// 25: n is 0 or above [`LIMIT`](crate::LIMIT), or the window is above 1,000,000,000.
    BadSize {
        /// The offset, as above.
        place: usize,
    },
    /// 26: bytes follow the end record; the place is the offset of the first.
    BytesAfter {
        /// The offset, as above.
        place: usize,
    },
}

impl CaseRefusal {
    pub(crate) fn of(number: u32, place: usize) -> CaseRefusal {
        match number {
            20 => CaseRefusal::WrongRoom,
            21 => CaseRefusal::Cut { place },
            22 => CaseRefusal::UnknownKind { place },
            23 => CaseRefusal::WrongOrder { place },
            24 => CaseRefusal::WrongCount { place },
            25 => CaseRefusal::BadSize { place },
            26 => CaseRefusal::BytesAfter { place },
            other => unreachable!("the refusals are 20 to 26, and not {other}"),
        }
    }

    /// 20 to 26.
    pub fn number(self) -> u32 {
        match self {
            CaseRefusal::WrongRoom => 20,
            CaseRefusal::Cut { .. } => 21,
            CaseRefusal::UnknownKind { .. } => 22,
            CaseRefusal::WrongOrder { .. } => 23,
            CaseRefusal::WrongCount { .. } => 24,
            CaseRefusal::BadSize { .. } => 25,
            CaseRefusal::BytesAfter { .. } => 26,
        }
    }

    /// 0 at [`CaseRefusal::WrongRoom`].
    pub fn place(self) -> usize {
        match self {
            CaseRefusal::WrongRoom => 0,
            CaseRefusal::Cut { place }
            | CaseRefusal::UnknownKind { place }
            | CaseRefusal::WrongOrder { place }
            | CaseRefusal::WrongCount { place }
            | CaseRefusal::BadSize { place }
            | CaseRefusal::BytesAfter { place } => place,
        }
    }
}

/// `REFUSED 21 AT 0`, as the program prints it.
impl fmt::Display for CaseRefusal {
    fn fmt(&self, f: &mut fmt::Formatter<'_>) -> fmt::Result {
        write!(f, "REFUSED {} AT {}", self.number(), self.place())
    }
}

impl core::error::Error for CaseRefusal {}

/// Why no body is at an offset.
#[derive(Clone, Copy, Debug, PartialEq, Eq)]
pub enum NoBody {
    /// 21: the file ends where a kind or body byte is due.
    Cut,
    /// 22: the kind is not 1 to 4.
    UnknownKind,
}

/// Reads a case file into room for [`ROOM`](crate::ROOM) costs and as many mask bytes.
///
/// Of an accepted file the first n n costs and mask bytes are written, as [`solve`](crate::solve) takes them; a forbidden
/// cell's cost is 0. The rest is untouched, and all of it where the file is refused.
///
/// ```
/// use serbihun::{enough, hut, read_case, solve, Answer, Room, ROOM};
///
/// let file = [
///     1, 2, 0, 0xE8, 3, 0, 0, // size 2, window 1,000
///     2, 7, 0, 3, 0, 0x88, 0x13, 0, 0, // hut 7, area 3, clock 5,000
///     2, 9, 0, 3, 0, 0x18, 0x15, 0, 0, // hut 9, area 3, clock 5,400
///     3, 3, 0, 0xB4, 0x14, 0, 0, // area 3, clock 5,300
///     3, 3, 0, 0x0C, 0x17, 0, 0, // area 3, clock 5,900
///     4, // end
/// ];
/// let (mut costs, mut mask) = ([0; ROOM], [0; ROOM]);
/// let case = read_case(&file, &mut costs, &mut mask)?;
/// assert_eq!(costs[..4], [300, 900, 100, 500]);
///
/// let (n, cells) = (case.n, case.n * case.n);
/// let mut room = Room::new();
/// let answer = solve(n, &costs[..cells], &mask[..cells], enough(n), room.lend(n));
/// assert!(matches!(answer, Answer::Paired { total: 800, .. }));
/// assert_eq!((hut(&file, 0), room.columns[0]), (Some(7), 0));
/// assert_eq!((hut(&file, 1), room.columns[1]), (Some(9), 1));
/// # Ok::<(), serbihun::CaseRefusal>(())
/// ```
pub fn read_case(file: &[u8], costs: &mut [i32], mask: &mut [u8]) -> Result<Case, CaseRefusal> {
    let case = c::read_case(file, costs, mask);
    match case.number {
        0 => Ok(Case {
            n: case.n,
            window: case.window,
        }),
        number => Err(CaseRefusal::of(number, case.place)),
    }
}

/// The hut of a row of a file; none where the row is not below n, or the file is refused.
pub fn hut(file: &[u8], row: usize) -> Option<u16> {
    u16::try_from(c::hut(file, row)).ok()
}

/// The body of the record whose kind byte is at an offset, as that part of the file. Nothing else of the file is judged.
///
/// ```
/// use serbihun::{record, NoBody};
///
/// let file = [3, 8, 0, 0xB4, 0x14, 0, 0, 4];
/// assert_eq!(record(&file, 0), Ok(&file[1..7]));
/// assert_eq!(record(&file, 7), Ok(&[][..]));
/// assert_eq!(record(&file, 8), Err(NoBody::Cut));
/// assert_eq!(record(&file, 1), Err(NoBody::UnknownKind));
/// ```
pub fn record(file: &[u8], at: usize) -> Result<&[u8], NoBody> {
    let found = c::record(file, at);
    match found.number {
        0 => Ok(&file[found.start..found.start + found.length]),
        21 => Err(NoBody::Cut),
        22 => Err(NoBody::UnknownKind),
        other => unreachable!("the answers are 0, 21 and 22, and not {other}"),
    }
}
