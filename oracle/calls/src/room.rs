//! How many words an exception table needs: the one thing that the Rust does not say, since its tables grow on the heap.

use crate::order::size;
use oracle::AuxMap;

/// Registers counted by value, so that cur_min and the number of exceptions are at hand.
#[derive(Clone)]
pub struct Room {
    kind: u8,
    base: usize,
    registers: Vec<u8>,
    counts: [usize; 64],
    cur_min: usize,
}

/// The least table of an lg_k, asked of the Rust.
pub fn base(lg_k: u8) -> usize {
    AuxMap::new(lg_k).estimated_size() / 4
}

impl Room {
    pub fn of(kind: u8, lg_k: u8, registers: Vec<u8>) -> Room {
        let mut counts = [0; 64];
        registers.iter().for_each(|register| counts[*register as usize] += 1);
        let cur_min = counts.iter().position(|count| *count > 0).unwrap();
        Room { kind, base: base(lg_k), registers, counts, cur_min }
    }

    pub fn empty(kind: u8, lg_k: u8) -> Room {
        Room::of(kind, lg_k, vec![0; 1 << lg_k])
    }

    /// The words that this coupon needs for a new exception, at the cur_min before it; 0 if it makes none.
    pub fn needed(&self, coupon: u32) -> usize {
        let (value, limit) = ((coupon >> 26) as usize, self.cur_min + 15);
        let old = self.registers[coupon as usize % self.registers.len()] as usize;
        if self.kind != 4 || value < limit || old >= limit {
            return 0;
        }
        let exceptions: usize = self.counts[limit..].iter().sum();
        size(self.base, exceptions + 1)
    }

    pub fn feed(&mut self, coupon: u32) {
        let at = coupon as usize % self.registers.len();
        let (value, old) = ((coupon >> 26) as u8, self.registers[at]);
        if value > old {
            self.registers[at] = value;
            self.counts[old as usize] -= 1;
            self.counts[value as usize] += 1;
            while self.counts[self.cur_min] == 0 {
                self.cur_min += 1;
            }
        }
    }

    pub fn cur_min(&self) -> usize {
        self.cur_min
    }
}
