//! One file tried on a reader: every answer, every byte of the room, and the guard zones about it, held against the model.
use crate::face::{case_of, record, Reader, ABSENT};
use crate::model::{self, ACCEPTED};
use crate::random::Random;

/// The elements that are guarded before and behind what is lent.
const GUARD: usize = 16;
/// The longest room that is tried.
const LONGEST: usize = model::ROOM + 16;

/// Costs and mask bytes, of which the first are lent; the whole is compared.
#[derive(Clone, PartialEq)]
struct Room {
    costs: Vec<i32>,
    mask: Vec<u8>,
}

/// What a reader is lent: room with random contents, and a copy of it to compare with.
pub struct Lent {
    room: Room,
    before: Room,
    file: Vec<u8>,
    random: Random,
}

/// The number that reader and model agreed on, or what differs.
pub type Verdict = Result<u32, String>;

impl Lent {
    pub fn new(seed: u64) -> Self {
        let length = GUARD + LONGEST + GUARD;
        let empty = Room { costs: vec![0; length], mask: vec![0; length] };
        let mut lent = Lent { room: empty.clone(), before: empty, file: vec![], random: Random::of(seed, 1) };
        lent.fill();
        lent
    }

    /// Other random contents.
    pub fn fill(&mut self) {
        for (cost, bit) in self.before.costs.iter_mut().zip(&mut self.before.mask) {
            let both = self.random.next();
            (*cost, *bit) = (both as i32, (both >> 32) as u8);
        }
        self.room.clone_from(&self.before);
    }

    /// Reads the file into the first `costs` costs and the first `mask` mask bytes.
    fn read_case(&mut self, reader: Reader, file: &[u8], (costs, mask): (usize, usize)) -> Verdict {
        let read = model::read(file);
        let wanted = case_of(&read, costs, mask);
        // Behind the file lie kinds: a reader that goes on would see records.
        self.file.clear();
        self.file.extend(file);
        self.file.extend([4, 2, 3, 1, 0, 4, 4, 4, 4]);
        let room = &mut self.room;
        let got = (reader.read_case)(&self.file[..file.len()], &mut room.costs[GUARD..][..costs], &mut room.mask[GUARD..][..mask]);
        if got != wanted {
            return Err(format!("{got:?}, and not {wanted:?}"));
        }
        if &self.file[..file.len()] != file {
            return Err("the file was written".to_string());
        }
        if let (ACCEPTED, Ok(case)) = (wanted.number, &read) {
            // What the file says, and the rest as it was before.
            self.before.costs[GUARD..][..case.costs.len()].copy_from_slice(&case.costs);
            self.before.mask[GUARD..][..case.mask.len()].copy_from_slice(&case.mask);
        }
        if self.room != self.before {
            return Err("costs or mask differ".to_string());
        }
        Ok(wanted.number)
    }

    fn hut(&self, reader: Reader, length: usize, huts: &[u16], row: usize) -> Result<(), String> {
        let got = (reader.hut)(&self.file[..length], row);
        let wanted = huts.get(row).map_or(ABSENT, |&hut| hut as u32);
        if got == wanted {
            Ok(())
        } else {
            Err(format!("hut {got} at row {row}, and not {wanted}"))
        }
    }

    fn record(&self, reader: Reader, length: usize, at: usize) -> Result<(), String> {
        let file = &self.file[..length];
        let (got, wanted) = ((reader.record)(file, at), record(file, at));
        if got == wanted {
            Ok(())
        } else {
            Err(format!("{got:?} at offset {at}, and not {wanted:?}"))
        }
    }

    /// A file of a family: the reader, the huts of all rows and of some that are not there, the records at all offsets and past the end.
    pub fn whole(&mut self, reader: Reader, file: &[u8], room: (usize, usize)) -> Verdict {
        let number = self.read_case(reader, file, room)?;
        let huts = model::read(file).map_or(vec![], |case| case.huts);
        let absent = [huts.len(), huts.len() + 1, 63, 64, 65_536, usize::MAX];
        (0..huts.len()).chain(absent).try_for_each(|row| self.hut(reader, file.len(), &huts, row))?;
        let behind = [file.len() + 1, file.len() + 9, 1 << 32, usize::MAX - 8, usize::MAX];
        (0..=file.len()).chain(behind).try_for_each(|at| self.record(reader, file.len(), at))?;
        Ok(number)
    }

    /// One of the many tiny files, none of which has a hut.
    pub fn tiny(&mut self, reader: Reader, file: &[u8]) -> Verdict {
        let number = self.read_case(reader, file, (model::ROOM, model::ROOM))?;
        self.hut(reader, file.len(), &[], 0)?;
        (0..=9).try_for_each(|at| self.record(reader, file.len(), at))?;
        Ok(number)
    }
}
