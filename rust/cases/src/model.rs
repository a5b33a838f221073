//! The case reader as a plain program, written from the text of the rules ("Case file" of document 01) and not from the reader's code.
use std::ops::Range;

/// The room for costs and for mask bytes that is right.
pub const ROOM: usize = 4096;
/// The greatest n and the greatest window.
pub const MOST: usize = 64;
pub const WIDEST: u32 = 1_000_000_000;

pub const ACCEPTED: u32 = 0;
pub const WRONG_ROOM: u32 = 20;
pub const FILE_ENDS: u32 = 21;
pub const UNKNOWN_KIND: u32 = 22;
pub const WRONG_SIZE_RECORD: u32 = 23;
pub const WRONG_COUNT: u32 = 24;
pub const BAD_SIZE: u32 = 25;
pub const BYTES_AFTER: u32 = 26;

pub const SIZE: u8 = 1;
pub const FRAGMENT: u8 = 2;
pub const EVENT: u8 = 3;
pub const END: u8 = 4;

/// A number that is not 0, and its place.
#[derive(Debug, Clone, Copy, PartialEq, Eq)]
pub struct Refusal {
    pub number: u32,
    pub place: usize,
}

/// What an accepted file says: costs and mask bytes are the first n*n, row by row; one hut for each row.
#[derive(Debug, Clone, PartialEq, Eq)]
pub struct Accepted {
    pub n: usize,
    pub window: u32,
    pub costs: Vec<i32>,
    pub mask: Vec<u8>,
    pub huts: Vec<u16>,
    pub fragments: Vec<Fragment>,
    pub events: Vec<Event>,
}

#[derive(Debug, Clone, PartialEq, Eq)]
pub struct Fragment {
    pub hut: u16,
    pub area: u16,
    pub clock: u32,
}

#[derive(Debug, Clone, PartialEq, Eq)]
pub struct Event {
    pub area: u16,
    pub clock: u32,
}

fn body_length(kind: u8) -> Option<usize> {
    match kind {
        SIZE => Some(2 + 4),
        FRAGMENT => Some(2 + 2 + 4),
        EVENT => Some(2 + 4),
        END => Some(0),
        _ => None,
    }
}

/// The whole record at an offset: where its body lies. Otherwise 21 or 22.
pub fn stands_at(file: &[u8], at: usize) -> Result<Range<usize>, u32> {
    let &kind = file.get(at).ok_or(FILE_ENDS)?;
    let length = body_length(kind).ok_or(UNKNOWN_KIND)?;
    let behind = file.len() - (at + 1);
    if length <= behind {
        Ok(at + 1..at + 1 + length)
    } else {
        Err(FILE_ENDS)
    }
}

fn u16_at(body: &[u8], at: usize) -> u16 {
    u16::from_le_bytes(body[at..at + 2].try_into().unwrap())
}

fn u32_at(body: &[u8], at: usize) -> u32 {
    u32::from_le_bytes(body[at..at + 4].try_into().unwrap())
}

/// Judges a file, whatever the room.
pub fn read(file: &[u8]) -> Result<Accepted, Refusal> {
    let mut size = None;
    let (mut fragments, mut events) = (vec![], vec![]);
    let mut place = 0;
    loop {
        let refused = |number| Refusal { number, place };
        let range = stands_at(file, place).map_err(refused)?;
        let (kind, next) = (file[place], range.end);
        let body = &file[range];
        // The first record is a size, and no other one is.
        if (kind == SIZE) != size.is_none() {
            return Err(refused(WRONG_SIZE_RECORD));
        }
        let Some((n, window)) = size else {
            let (n, window) = (u16_at(body, 0) as usize, u32_at(body, 2));
            if n == 0 || n > MOST || window > WIDEST {
                return Err(refused(BAD_SIZE));
            }
            size = Some((n, window));
            place = next;
            continue;
        };
        match kind {
            FRAGMENT => fragments.push(Fragment { hut: u16_at(body, 0), area: u16_at(body, 2), clock: u32_at(body, 4) }),
            EVENT => events.push(Event { area: u16_at(body, 0), clock: u32_at(body, 2) }),
            _ => {
                if fragments.len() < n || events.len() < n {
                    return Err(refused(WRONG_COUNT));
                }
                if next < file.len() {
                    return Err(Refusal { number: BYTES_AFTER, place: next });
                }
                return Ok(accepted(window, fragments, events));
            }
        }
        if fragments.len() > n || events.len() > n {
            return Err(refused(WRONG_COUNT));
        }
        place = next;
    }
}

fn accepted(window: u32, fragments: Vec<Fragment>, events: Vec<Event>) -> Accepted {
    let (mut costs, mut mask) = (vec![], vec![]);
    for row in &fragments {
        for column in &events {
            let difference = row.clock.abs_diff(column.clock);
            let allowed = row.area == column.area && difference <= window;
            costs.push(if allowed { difference as i32 } else { 0 });
            mask.push(allowed as u8);
        }
    }
    Accepted { n: fragments.len(), window, costs, mask, huts: fragments.iter().map(|row| row.hut).collect(), fragments, events }
}
