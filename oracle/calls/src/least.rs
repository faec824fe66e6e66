//! The smallest input that still fails, as far as a few seconds find it: large sketches take their time.

use crate::report::shrink;
use std::time::{Duration, Instant};

pub fn least<T: Clone>(steps: &[T], fails: impl Fn(&[T]) -> bool) -> Vec<T> {
    let end = Instant::now() + Duration::from_secs(4);
    // Past that nothing fails any more, so what is left stays.
    shrink(steps, |steps| Instant::now() < end && fails(steps))
}
