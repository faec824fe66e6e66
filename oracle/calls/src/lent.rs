//! Memory lent to a call, with more of it around that must stay.

use std::fmt::LowerHex;

/// What a lent slice is made of.
pub trait Cell: Copy + PartialEq + LowerHex {
    const SENTRY: Self;
    /// What an earlier owner may have left.
    fn noise(at: usize) -> Self;
}

impl Cell for u8 {
    const SENTRY: u8 = 0xdb;
    fn noise(at: usize) -> u8 {
        u32::noise(at) as u8
    }
}

impl Cell for u32 {
    const SENTRY: u32 = 0xdead_beef;
    fn noise(at: usize) -> u32 {
        (at as u32).wrapping_mul(0x9e37_79b9) | 1
    }
}

#[derive(Clone)]
pub struct Lent<T>(Vec<T>);

const AROUND: usize = 8;

impl<T: Cell> Lent<T> {
    pub fn holding(content: impl ExactSizeIterator<Item = T>) -> Lent<T> {
        let mut lent = Lent(vec![T::SENTRY; content.len() + 2 * AROUND]);
        lent.all_mut().iter_mut().zip(content).for_each(|(cell, held)| *cell = held);
        lent
    }

    pub fn noise(room: usize) -> Lent<T> {
        Lent::holding((0..room).map(T::noise))
    }

    pub fn all(&self) -> &[T] {
        &self.0[AROUND..self.0.len() - AROUND]
    }

    pub fn all_mut(&mut self) -> &mut [T] {
        let end = self.0.len() - AROUND;
        &mut self.0[AROUND..end]
    }

    pub fn is_noise(&self) -> bool {
        self.all().iter().enumerate().all(|(at, cell)| *cell == T::noise(at))
    }

    pub fn intact(&self) -> bool {
        let (before, rest) = self.0.split_at(AROUND);
        before.iter().chain(&rest[rest.len() - AROUND..]).all(|cell| *cell == T::SENTRY)
    }
}
