//! A stand-in for the crate fixedbitset: the part that munkres 0.5.2 uses, written for it.
//!
//! Blocks of 32 bits in a Vec and an iterator over the ones of one block after another, as in fixedbitset 0.4, so that the crate's
//! scans cost about what they cost there.
use std::ops::RangeFull;

const BITS: usize = 32;

#[derive(Debug, Clone)]
pub struct FixedBitSet {
    blocks: Vec<u32>,
    length: usize,
}

impl FixedBitSet {
    pub fn with_capacity(bits: usize) -> Self {
        FixedBitSet { blocks: vec![0; bits.div_ceil(BITS)], length: bits }
    }

    /// Sets every bit to `enabled`; the bits past the length stay 0.
    pub fn set_range(&mut self, _all: RangeFull, enabled: bool) {
        for (at, block) in self.blocks.iter_mut().enumerate() {
            let here = (self.length - at * BITS).min(BITS);
            *block = if enabled { u32::MAX >> (BITS - here) } else { 0 };
        }
    }

    #[inline]
    pub fn contains(&self, bit: usize) -> bool {
        match self.blocks.get(bit / BITS) {
            Some(block) => block & (1 << (bit % BITS)) != 0,
            None => false,
        }
    }

    #[inline]
    pub fn set(&mut self, bit: usize, enabled: bool) {
        assert!(bit < self.length, "bit {bit} of a set of {}", self.length);
        let block = &mut self.blocks[bit / BITS];
        if enabled {
            *block |= 1 << (bit % BITS);
        } else {
            *block &= !(1 << (bit % BITS));
        }
    }

    pub fn count_ones(&self, _all: RangeFull) -> usize {
        self.blocks.iter().map(|b| b.count_ones() as usize).sum()
    }

    #[inline]
    pub fn ones(&self) -> Ones<'_> {
        match self.blocks.split_first() {
            Some((&first, rest)) => Ones { block: first, base: 0, rest },
            None => Ones { block: 0, base: 0, rest: &[] },
        }
    }
}

/// The places of the ones, upwards.
pub struct Ones<'a> {
    block: u32,
    base: usize,
    rest: &'a [u32],
}

impl Iterator for Ones<'_> {
    type Item = usize;

    #[inline]
    fn next(&mut self) -> Option<usize> {
        while self.block == 0 {
            let (&first, rest) = self.rest.split_first()?;
            self.block = first;
            self.rest = rest;
            self.base += BITS;
        }
        let bit = self.block.trailing_zeros() as usize;
        self.block &= self.block - 1;
        Some(self.base + bit)
    }
}
