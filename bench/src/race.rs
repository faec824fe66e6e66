//! Times the sides in turns, so that what disturbs the machine disturbs all of them, and keeps the shortest time of each.

use std::hint::black_box;
use std::time::{Duration, Instant};

pub trait Work {
    /// Puts everything where the turn's work starts. Not timed.
    fn ready(&mut self, turn: usize);
    fn work(&mut self, turn: usize);
    /// How often the work is done between two looks at the clock.
    fn times(&self) -> usize;
}

/// Work that changes its sketch: each time on a fresh copy, of one after the other of those given. The work is told which time it is.
pub struct Fresh<'a, S, F> {
    from: &'a [S],
    copies: Vec<S>,
    work: F,
}

impl<'a, S: Clone, F: FnMut(&mut S, usize)> Fresh<'a, S, F> {
    pub fn new(from: &'a [S], times: usize, work: F) -> Self {
        Fresh { from, copies: vec![from[0].clone(); times], work }
    }

    /// What the work made last.
    pub fn made(&self) -> &S {
        &self.copies[self.copies.len() - 1]
    }
}

impl<S: Clone, F: FnMut(&mut S, usize)> Work for Fresh<'_, S, F> {
    fn ready(&mut self, turn: usize) {
        let first = turn * self.copies.len();
        for (at, copy) in self.copies.iter_mut().enumerate() {
            *copy = self.from[(first + at) % self.from.len()].clone();
        }
    }

    fn work(&mut self, turn: usize) {
        let first = turn * self.copies.len();
        for (at, copy) in self.copies.iter_mut().enumerate() {
            (self.work)(black_box(copy), first + at);
        }
    }

    fn times(&self) -> usize {
        self.copies.len()
    }
}

/// Work that always makes the same: again and again into one place.
pub struct Same<T, F> {
    pub made: T,
    times: usize,
    work: F,
}

impl<T, F: FnMut(&mut T)> Same<T, F> {
    pub fn new(into: T, times: usize, work: F) -> Self {
        Same { made: into, times, work }
    }
}

impl<T, F: FnMut(&mut T)> Work for Same<T, F> {
    fn ready(&mut self, _turn: usize) {}

    fn work(&mut self, _turn: usize) {
        (0..self.times).for_each(|_| (self.work)(black_box(&mut self.made)));
    }

    fn times(&self) -> usize {
        self.times
    }
}

/// So often that the clock's own time does not count, for work on so many registers and coupons.
pub fn times(size: usize) -> usize {
    (16384 / size).clamp(1, 1024)
}

const LEAST_TURNS: usize = 15;
const LEAST_TIME: Duration = Duration::from_millis(300);

/// The shortest time that each side's work took, in nanoseconds.
pub fn race<const N: usize>(mut sides: [&mut dyn Work; N]) -> [f64; N] {
    let mut best = [f64::INFINITY; N];
    let begin = Instant::now();
    let mut turn = 0;
    while turn < LEAST_TURNS || begin.elapsed() < LEAST_TIME {
        for i in 0..N {
            // Another one begins each time.
            let at = (turn + i) % N;
            let side = &mut sides[at];
            side.ready(turn);
            let start = Instant::now();
            side.work(turn);
            let took = start.elapsed().as_nanos() as f64 / side.times() as f64;
            best[at] = best[at].min(took);
        }
        turn += 1;
    }
    best
}
