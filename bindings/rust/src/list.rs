//! The coupons of a list or set, fed to a sketch.

use crate::sketch::GOOD;
use crate::{Refusal, Sketch, area};

impl Sketch {
    /// Takes the coupons of a compact list or set, which DataSketches writes while there are few: [`from_bytes`](Sketch::from_bytes) reads
    /// registers alone. The answer is how many coupons the image has, those that raise nothing among them. The sketch is then as if each
    /// of them had been given to [`update`](Sketch::update) in the image's order.
    ///
    /// Any bytes may be handed in, and a refused image changes nothing. The answer is the first of these that applies:
    /// [`Refusal::Short`] for under 8 bytes, [`Header`](Refusal::Header), [`Short`](Refusal::Short) for a set under 12 bytes,
    /// [`Mode`](Refusal::Mode), [`LgK`](Refusal::LgK), [`Form`](Refusal::Form), [`Short`](Refusal::Short),
    /// [`ListEmpty`](Refusal::ListEmpty), [`Finer`](Refusal::Finer) if this sketch's lg_k is larger than the image's. Ignored are bytes
    /// behind the image, the kind that it names, its other flags, and whether a coupon is there twice.
    ///
    /// The whole sketch is checked, and coupons that wait are fed before: it takes time for k registers, whatever the image has.
    ///
    /// ```
    /// # use lintelpear::{Kind, Refusal, Sketch};
    /// // Slot 3 at 5 and slot 19 at 9, of lg_k 5.
    /// let mut image = [2, 1, 7, 5, 3, 8, 2, 8, 3, 0, 0, 5 << 2, 19, 0, 0, 9 << 2];
    /// let mut sketch = Sketch::new(4, Kind::Six).unwrap();
    /// assert_eq!(sketch.feed_image(&image), Ok(2));
    /// assert_eq!(sketch.registers()[3], 9);
    ///
    /// image[12..].fill(0);
    /// let refusal = sketch.feed_image(&image).unwrap_err();
    /// assert_eq!(refusal, Refusal::ListEmpty(1));
    /// assert_eq!(refusal.to_string(), "a word of the list or set is zero: word 1, from 0");
    /// ```
    pub fn feed_image(&mut self, image: &[u8]) -> Result<usize, Refusal> {
        // Those that came first go first: in kind 4 that shows in the order of exceptions.
        self.flush();
        let k = self.k();
        loop {
            let mut scratch = vec![0; self.aux.len()];
            let fed = self.record.feed_image(&mut self.regs, &mut self.aux, &mut scratch, image);
            match fed.answer {
                Ok(()) => return Ok(fed.taken),
                // What was taken is taken again, and raises nothing.
                Err(Refusal::NoRoom) => area::grow(&mut self.aux, k),
                Err(refusal @ (Refusal::Kind | Refusal::Size | Refusal::Damaged)) => {
                    unreachable!("{GOOD}: {refusal}")
                }
                Err(refusal) => return Err(refusal),
            }
        }
    }
}
