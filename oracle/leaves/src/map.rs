//! The Rust's AuxMap with its words at their places. They are private to its file; its derived `Debug` shows them.

use crate::order;
use oracle::AuxMap;
use std::fmt::{self, Write};

/// The numbers in a text. The derived `Debug` of an AuxMap has these: lg_size, lg_config_k, the words, count.
#[derive(Default)]
struct Numbers {
    found: Vec<u32>,
    inside: bool,
}

impl Write for Numbers {
    fn write_str(&mut self, text: &str) -> fmt::Result {
        for byte in text.bytes() {
            let digit = byte.is_ascii_digit();
            if digit && !self.inside {
                self.found.push(0);
            }
            if digit {
                let last = self.found.last_mut().unwrap();
                *last = *last * 10 + (byte - b'0') as u32;
            }
            self.inside = digit;
        }
        Ok(())
    }
}

/// The Rust's words at their places, and its count; none of either while it has no map.
pub fn shown(map: &Option<AuxMap>) -> (Vec<u32>, usize) {
    let Some(map) = map else { return (Vec::new(), 0) };
    let mut numbers = Numbers::default();
    write!(numbers, "{map:?}").unwrap();
    let count = numbers.found.pop().unwrap();
    let words = numbers.found.split_off(2);
    assert_eq!((words.len(), map.estimated_size()), (1 << numbers.found[0], 4 * words.len()));
    (words, count as usize)
}

/// The Rust's map of these words, inserted in their order; none for none.
pub fn mapped(lg_k: u8, words: &[u32]) -> Option<AuxMap> {
    let mut map = None;
    for word in words {
        map.get_or_insert_with(|| AuxMap::new(lg_k)).insert(order::slot(*word), (word >> 26) as u8);
    }
    map
}

/// That the text has this form and no other numbers.
pub fn form() -> Result<(), String> {
    let mut map = AuxMap::new(4);
    map.insert(9, 15);
    let shown = format!("{map:?}");
    let form = "AuxMap { lg_size: 2, lg_config_k: 4, \
                entries: [Coupon(0), Coupon(1006632969), Coupon(0), Coupon(0)], count: 1 }";
    if shown == form { Ok(()) } else { Err(format!("an AuxMap shows itself as {shown}")) }
}
