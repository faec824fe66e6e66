//! Words lent to a leaf, with others around them that must stay.

pub struct Lent(Vec<u32>);

const AROUND: usize = 4;
const SENTRY: u32 = 0xdead_beef;

impl Lent {
    pub fn zeros(room: usize) -> Lent {
        let mut lent = Lent(vec![SENTRY; room + 2 * AROUND]);
        lent.words().fill(0);
        lent
    }

    /// With words in it as an earlier call may have left them.
    pub fn scratch(room: usize) -> Lent {
        let mut lent = Lent::zeros(room);
        let words = lent.words().iter_mut().enumerate();
        words.for_each(|(at, word)| *word = (at as u32).wrapping_mul(0x9e37_79b9) | 1);
        lent
    }

    pub fn words(&mut self) -> &mut [u32] {
        let end = self.0.len() - AROUND;
        &mut self.0[AROUND..end]
    }

    pub fn intact(&self) -> bool {
        let (before, rest) = self.0.split_at(AROUND);
        before.iter().chain(&rest[rest.len() - AROUND..]).all(|word| *word == SENTRY)
    }
}
