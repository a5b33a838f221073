//! Draws what the programs run: random numbers, matrices and masks of many styles, and buffers with guard zones.
use crate::face::{Lent, LIMIT, MOST};
use std::ops::RangeInclusive;

/// Splitmix64: the same numbers for the same seed everywhere.
pub struct Random(u64);

impl Random {
    /// The numbers of one run: a run can be repeated alone.
    pub fn of(seed: u64, run: u64) -> Self {
        let mut random = Random(seed.wrapping_mul(0x9e37_79b9_7f4a_7c15) ^ run);
        Random(random.next() ^ run.rotate_left(32))
    }

    pub fn next(&mut self) -> u64 {
        self.0 = self.0.wrapping_add(0x9e37_79b9_7f4a_7c15);
        let mut z = self.0;
        z = (z ^ (z >> 30)).wrapping_mul(0xbf58_476d_1ce4_e5b9);
        z = (z ^ (z >> 27)).wrapping_mul(0x94d0_49bb_1331_11eb);
        z ^ (z >> 31)
    }

    pub fn below(&mut self, n: usize) -> usize {
        (self.next() % n as u64) as usize
    }

    pub fn within(&mut self, range: RangeInclusive<i64>) -> i64 {
        range.start() + (self.next() % (range.end() - range.start() + 1) as u64) as i64
    }

    /// True once in n.
    pub fn once_in(&mut self, n: usize) -> bool {
        self.below(n) == 0
    }

    pub fn pick<T: Copy>(&mut self, from: &[T]) -> T {
        from[self.below(from.len())]
    }

    pub fn permutation(&mut self, n: usize) -> Vec<usize> {
        let mut list: Vec<usize> = (0..n).collect();
        for i in (1..n).rev() {
            list.swap(i, self.below(i + 1));
        }
        list
    }

    /// A size from 1 to 64, mostly small; every one occurs.
    pub fn size(&mut self) -> usize {
        match self.below(100) {
            0..=69 => self.within(1..=8) as usize,
            70..=91 => self.within(9..=20) as usize,
            92..=97 => self.within(21..=40) as usize,
            _ => self.within(41..=64) as usize,
        }
    }
}

#[derive(Debug, Clone)]
pub struct Case {
    pub n: usize,
    pub costs: Vec<i32>,
    pub mask: Vec<u8>,
    pub budget: u32,
}

impl Case {
    pub fn bytes(&self) -> Vec<u8> {
        bytes(&self.costs)
    }
}

pub fn bytes(costs: &[i32]) -> Vec<u8> {
    costs.iter().flat_map(|cost| cost.to_le_bytes()).collect()
}

/// The budget that no run needs more than.
pub fn enough(n: usize) -> u32 {
    (n * (n - 1) / 2) as u32
}

/// Costs from -most to most in one of the styles: with many ties, spread out, at the limits, and those that make long runs.
pub fn costs(random: &mut Random, n: usize, most: i64) -> Vec<i32> {
    let matrix =
        |f: &mut dyn FnMut(usize, usize) -> i64| -> Vec<i32> { (0..n * n).map(|q| f(q / n, q % n).clamp(-most, most) as i32).collect() };
    match random.below(9) {
        0..=2 => matrix(&mut |_, _| random.within(0..=3)),
        3 => matrix(&mut |_, _| random.within(0..=1000)),
        4 => matrix(&mut |_, _| random.within(-most..=most)),
        5 => matrix(&mut |_, _| random.pick(&[-most, 0, most])),
        // A price list with a little added: many zeros after the first prices.
        6 => {
            let spread = random.pick(&[3, 30, most / 4]);
            let rows: Vec<i64> = (0..n).map(|_| random.within(-spread..=spread)).collect();
            let columns: Vec<i64> = (0..n).map(|_| random.within(-spread..=spread)).collect();
            let added = random.pick(&[0, 1, 2, 10]);
            matrix(&mut |i, j| rows[i] + columns[j] + random.within(0..=added))
        }
        // The worst case, as it is or shuffled, with or without noise.
        7 => {
            let plain = random.once_in(2);
            let (rows, columns) = (random.permutation(n), random.permutation(n));
            let noise = random.pick(&[0, 0, 1, 3]);
            let factor = random.pick(&[1, 1, 7, most / (MOST * MOST) as i64]).max(1);
            let line = |lines: &[usize], i: usize| if plain { i as i64 + 1 } else { lines[i] as i64 + 1 };
            matrix(&mut |i, j| line(&rows, i) * line(&columns, j) * factor + random.within(0..=noise))
        }
        // A chain that drives the prices up.
        _ => matrix(&mut |i, j| match (j + n - i) % n {
            0 => -most,
            1 => most,
            _ => random.pick(&[0, most]),
        }),
    }
}

/// A mask in one of the styles, from full to almost empty.
pub fn mask(random: &mut Random, n: usize) -> Vec<u8> {
    let density = random.pick(&[1, 2, 5, 10, 20, 35, 50, 65, 80, 90, 97]);
    let mut mask: Vec<u8> = (0..n * n).map(|_| (random.below(100) < density) as u8).collect();
    match random.below(10) {
        0 => mask.fill(1),
        // A pairing is left open.
        1..=4 => random.permutation(n).iter().enumerate().for_each(|(row, column)| mask[row * n + column] = 1),
        // Every row has a cell, so that the row test finds nothing.
        5..=6 => (0..n).for_each(|row| mask[row * n + random.below(n)] = 1),
        // A block is forbidden, everything else is allowed.
        7 => {
            let tall = random.within(1..=n as i64) as usize;
            let (rows, columns) = (random.permutation(n), random.permutation(n));
            mask.fill(1);
            for row in &rows[..tall] {
                columns[..n + 1 - tall].iter().for_each(|column| mask[row * n + column] = 0);
            }
        }
        // Areas: a pair is allowed inside an area only.
        8 => {
            let areas = random.within(1..=4) as usize;
            let (rows, columns): (Vec<_>, Vec<_>) = (0..n).map(|_| (random.below(areas), random.below(areas))).unzip();
            (0..n * n).for_each(|q| mask[q] = (rows[q / n] == columns[q % n]) as u8);
        }
        _ => {}
    }
    mask
}

/// Puts anything whatever into the forbidden cells.
pub fn spoil_forbidden(random: &mut Random, costs: &mut [i32], mask: &[u8]) {
    for (cost, _) in costs.iter_mut().zip(mask).filter(|(_, &bit)| bit == 0) {
        *cost = random.pick(&[0, 0, 5, i32::MIN, i32::MAX, LIMIT as i32 + 1, -LIMIT as i32 - 1]);
    }
}

/// A matrix with a mask and a budget that is mostly enough.
pub fn case(random: &mut Random, n: usize) -> Case {
    let most = random.pick(&[1000, 1_000_000, LIMIT]);
    let mut costs = costs(random, n, most);
    let mask = mask(random, n);
    spoil_forbidden(random, &mut costs, &mask);
    let budget = random.pick(&[u32::MAX, enough(n), enough(n), enough(n) + 1]);
    Case { n, costs, mask, budget }
}

/// A buffer inside a longer one: what lies before and after it is guarded, since the whole is compared.
#[derive(Clone, PartialEq)]
pub struct Zone<T> {
    all: Vec<T>,
    start: usize,
    end: usize,
}

impl<T: Copy> Zone<T> {
    /// With random contents, or with the given ones in the lent part.
    fn filled(random: &mut Random, length: usize, make: fn(u64) -> T) -> Self {
        let (start, after) = (8 + random.below(8), 8 + random.below(8));
        let all = (0..start + length + after).map(|_| make(random.next())).collect();
        Zone { all, start, end: start + length }
    }

    pub fn lent(&self) -> &[T] {
        &self.all[self.start..self.end]
    }

    fn lent_mut(&mut self) -> &mut [T] {
        &mut self.all[self.start..self.end]
    }
}

/// Everything that a call is lent.
#[derive(Clone, PartialEq)]
pub struct Buffers {
    pub costs: Zone<u8>,
    pub mask: Zone<u8>,
    pub working: Zone<i64>,
    pub marks: Zone<u8>,
    pub columns: Zone<u16>,
    pub row_prices: Zone<i64>,
    pub column_prices: Zone<i64>,
}

/// The lengths of the five written buffers.
pub type Lengths = [usize; 5];

/// The lengths that are right for n.
pub fn lengths(n: usize) -> Lengths {
    [n * n, n * n, n, n, n]
}

impl Buffers {
    pub fn new(random: &mut Random, costs: &[u8], mask: &[u8], [working, marks, columns, row_prices, column_prices]: Lengths) -> Self {
        let mut buffers = Buffers {
            costs: Zone::filled(random, costs.len(), |x| x as u8),
            mask: Zone::filled(random, mask.len(), |x| x as u8),
            working: Zone::filled(random, working, |x| x as i64),
            marks: Zone::filled(random, marks, |x| x as u8),
            columns: Zone::filled(random, columns, |x| x as u16),
            row_prices: Zone::filled(random, row_prices, |x| x as i64),
            column_prices: Zone::filled(random, column_prices, |x| x as i64),
        };
        buffers.costs.lent_mut().copy_from_slice(costs);
        buffers.mask.lent_mut().copy_from_slice(mask);
        buffers
    }

    /// Costs, mask and what is written.
    pub fn lend(&mut self) -> (&[u8], &[u8], Lent<'_>) {
        let lent = Lent {
            working: self.working.lent_mut(),
            marks: self.marks.lent_mut(),
            columns: self.columns.lent_mut(),
            row_prices: self.row_prices.lent_mut(),
            column_prices: self.column_prices.lent_mut(),
        };
        (self.costs.lent(), self.mask.lent(), lent)
    }

    /// The name of the first buffer that is not as in the other, guard zones included.
    pub fn differs(&self, other: &Self) -> Option<&'static str> {
        let same = [
            ("costs", self.costs == other.costs),
            ("mask", self.mask == other.mask),
            ("working", self.working == other.working),
            ("marks", self.marks == other.marks),
            ("columns", self.columns == other.columns),
            ("row prices", self.row_prices == other.row_prices),
            ("column prices", self.column_prices == other.column_prices),
        ];
        same.iter().find(|(_, same)| !same).map(|(name, _)| *name)
    }
}
