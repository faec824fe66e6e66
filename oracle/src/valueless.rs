//! Counts what became of images that list an exception word with a slot and no value: by document 02 (CR 3) an entry, and always a wrong one.

use crate::model::{listed, value};
use std::fmt;

#[derive(Default)]
pub struct Valueless {
    twice: usize,
    low: usize,
    /// Refused for something before the first such word.
    before: usize,
}

impl Valueless {
    /// An image and its answer. It is a fault to have passed over such a word.
    pub fn add(&mut self, image: &[u8], (number, place): (u8, u32)) -> Result<(), String> {
        // Answers that come before the words, which may not be there.
        if matches!(number, 2 | 3 | 6..=11) {
            return Ok(());
        }
        let words = (0..).zip(listed(image));
        let mut found = words.filter(|(_, word)| *word != 0 && value(*word) == 0);
        let Some((first, _)) = found.next() else { return Ok(()) };
        match (number, place) {
            (22, at) if at == first => self.twice += 1,
            (23, at) if at == first => self.low += 1,
            (12, _) => self.before += 1,
            (21..=23, at) if at < first => self.before += 1,
            _ => return Err(format!("answered {number} at {place}, word {first} passed over")),
        }
        Ok(())
    }
}

impl fmt::Display for Valueless {
    fn fmt(&self, f: &mut fmt::Formatter<'_>) -> fmt::Result {
        let Valueless { twice, low, before } = self;
        write!(
            f,
            "{} listed a word with a slot and no value: AUX_TWICE at the first of them {twice}, \
             AUX_LOW at it {low}, refused for something before it {before}; any other answer is a fault",
            twice + low + before
        )
    }
}
