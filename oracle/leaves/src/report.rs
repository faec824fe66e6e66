//! What a difference is reported with: the smallest input that still fails, as far as leaving steps out finds it, and the
//! first place that differs.

use std::fmt::LowerHex;

/// Leaves out runs of steps, long ones first, as long as the rest still fails.
pub fn shrink<T: Clone>(steps: &[T], fails: impl Fn(&[T]) -> bool) -> Vec<T> {
    let mut left = steps.to_vec();
    let mut run = left.len().div_ceil(2);
    // A long list of a large table takes its time; what is found by then is small enough.
    let mut tries = 3000;
    while run > 0 && tries > 0 {
        let mut from = 0;
        let before = left.len();
        while from < left.len() && tries > 0 {
            tries -= 1;
            let mut less = left.clone();
            less.drain(from..(from + run).min(left.len()));
            match fails(&less) {
                true => left = less,
                false => from += run,
            }
        }
        if left.len() == before || run > 1 {
            run /= 2;
        }
    }
    left
}

/// Where two lists first differ; both of them, if they are short.
pub fn difference<T: PartialEq + LowerHex>(ours: &[T], rust: &[T]) -> Option<String> {
    if ours == rust {
        return None;
    }
    let hex = |list: &[T]| list.iter().map(|x| format!("{x:x}")).collect::<Vec<_>>().join(" ");
    let first = (0..ours.len().min(rust.len())).find(|at| ours[*at] != rust[*at]);
    Some(match first {
        _ if ours.len().max(rust.len()) <= 64 => {
            format!("have\n  {}\nthe Rust's\n  {}", hex(ours), hex(rust))
        }
        None => format!("are {}, the Rust's {}", ours.len(), rust.len()),
        Some(at) => format!("have {:x} at {at}, the Rust's {:x}", ours[at], rust[at]),
    })
}
