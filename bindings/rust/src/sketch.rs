//! A sketch that owns its memory: fed, merged and read. Its images are in image.rs, the lists and sets that it is fed in list.rs.

use std::borrow::Cow;
use std::mem;

use crate::area;
use crate::lent::{self, Record};
use crate::{Coupon, Kind, Refusal};

/// Why no call refuses a sketch of this type, whose memory nobody else writes.
pub(crate) const GOOD: &str = "an owned sketch is in good order";

/// HyperLogLog registers in memory of their own.
///
/// Each call of the library first checks the whole sketch. So coupons wait until there are k/16 of them, or 64 if that is more, and are
/// fed together; on average a coupon costs the same whatever k is. Reads see the waiting ones too: where some wait, a read feeds them to
/// a copy and reads that, so after the last coupon it is worth a [`flush`](Sketch::flush) if several reads follow. What is read never
/// depends on how coupons came, one by one or together, nor on reads in between.
///
/// Two sketches are equal if kind, lg_k and all registers are the same. Equal sketches of kinds 6 and 8 also write the same image; kind 4
/// lists its exceptions in an order that depends on what came first.
///
/// Kind 4's exception area grows by itself, up to 2k words.
#[derive(Clone, Debug)]
pub struct Sketch {
    pub(crate) record: Record,
    pub(crate) regs: Vec<u8>,
    pub(crate) aux: Vec<u32>,
    pub(crate) waiting: Vec<u32>,
}

impl Sketch {
    /// An empty sketch of 2^lg_k registers. Refused with [`Refusal::LgK`] if lg_k is outside 4 to 21.
    ///
    /// ```
    /// use lintelpear::{Kind, Refusal, Sketch};
    ///
    /// let sketch = Sketch::new(4, Kind::Six).unwrap();
    /// assert_eq!(sketch.registers(), [0; 16]);
    /// assert_eq!(Sketch::new(22, Kind::Six), Err(Refusal::LgK));
    /// ```
    pub fn new(lg_k: u8, kind: Kind) -> Result<Sketch, Refusal> {
        let mut regs = vec![0; kind.register_bytes(lg_k)];
        let record = lent::start(kind as u32, lg_k.into(), &mut regs, &mut [])?;
        Ok(Sketch { record, regs, aux: Vec::new(), waiting: Vec::new() })
    }

    /// The kind that the sketch was made with.
    #[doc(alias = "target_type")]
    pub fn kind(&self) -> Kind {
        match self.record.0[0] {
            4 => Kind::Four,
            6 => Kind::Six,
            _ => Kind::Eight,
        }
    }

    /// The number of registers, as an exponent of two.
    #[doc(alias = "lg_config_k")]
    pub fn lg_k(&self) -> u8 {
        self.record.0[1] as u8
    }

    pub(crate) fn k(&self) -> usize {
        1 << self.lg_k()
    }

    /// Takes one coupon: the register of its slot modulo k becomes its value, if that is larger. Also see [`Extend`], for many.
    ///
    /// ```
    /// # use lintelpear::{Coupon, Kind, Sketch};
    /// let mut sketch = Sketch::new(4, Kind::Four).unwrap();
    /// sketch.update(Coupon::new(3, 5));
    /// sketch.update(Coupon::new(3, 2));
    /// sketch.extend([Coupon::new(19, 9), Coupon::new(1, 40)]);
    /// assert_eq!(sketch.registers()[..4], [0, 40, 0, 9]);
    /// ```
    #[doc(alias = "update_with_coupon")]
    pub fn update(&mut self, coupon: impl Into<Coupon>) {
        self.waiting.push(coupon.into().into());
        if self.waiting.len() >= (self.k() / 16).max(64) {
            self.flush();
        }
    }

    /// Feeds the coupons that wait, so that no read needs a copy until others come. It changes nothing that can be read.
    pub fn flush(&mut self) {
        let mut waiting = mem::take(&mut self.waiting);
        self.feed(&waiting);
        // Its memory is kept for those to come.
        waiting.clear();
        self.waiting = waiting;
    }

    fn feed(&mut self, mut coupons: &[u32]) {
        let k = self.k();
        let mut scratch = vec![0; self.aux.len()];
        while !coupons.is_empty() {
            let fed = self.record.feed(&mut self.regs, &mut self.aux, &mut scratch, coupons);
            coupons = &coupons[fed.taken..];
            if fed.answer == Err(Refusal::NoRoom) {
                area::grow(&mut self.aux, k);
                scratch.resize(self.aux.len(), 0);
            } else {
                fed.answer.expect(GOOD);
            }
        }
    }

    /// This sketch with no coupons waiting.
    pub(crate) fn fed(&self) -> Cow<'_, Sketch> {
        if self.waiting.is_empty() {
            return Cow::Borrowed(self);
        }
        let mut copy = self.clone();
        copy.flush();
        Cow::Owned(copy)
    }

    /// Merges another sketch, of any kind, into this one: each register becomes the largest of itself and the source's at the slots that
    /// are its own modulo k.
    ///
    /// Refused with [`Refusal::Kind`] if this sketch is not of kind 8, and with [`Refusal::Finer`] if its lg_k is larger than the
    /// source's. A refused merge changes nothing.
    ///
    /// ```
    /// # use lintelpear::{Coupon, Kind, Refusal, Sketch};
    /// let mut fine = Sketch::new(5, Kind::Four).unwrap();
    /// fine.extend([Coupon::new(3, 2), Coupon::new(19, 9)]);
    ///
    /// let mut all = Sketch::new(4, Kind::Eight).unwrap();
    /// all.merge(&fine).unwrap();
    /// assert_eq!(all.registers()[3], 9);
    /// assert_eq!(fine.merge(&all), Err(Refusal::Kind));
    /// ```
    pub fn merge(&mut self, source: &Sketch) -> Result<(), Refusal> {
        self.record.merge(&mut self.regs, &source.record, &source.regs, &source.aux)?;
        // The largest value is the same in any order, and this k divides the source's: whatever waits on either side may come later.
        self.extend(source.waiting.iter().copied());
        Ok(())
    }

    /// The k registers, a byte each.
    ///
    /// ```
    /// # use lintelpear::{Coupon, Kind, Sketch};
    /// let mut sketch = Sketch::new(4, Kind::Eight).unwrap();
    /// sketch.update(Coupon::new(15, 63));
    /// assert_eq!(sketch.registers()[13..], [0, 0, 63]);
    /// ```
    pub fn registers(&self) -> Vec<u8> {
        let fed = self.fed();
        let mut registers = vec![0; fed.k()];
        fed.record.unpack(&fed.regs, &fed.aux, &mut registers).expect(GOOD);
        registers
    }

    /// kxq0 and kxq1, exact: 1/2^v added up over the registers below 32, and over the others.
    ///
    /// ```
    /// # use lintelpear::{Coupon, Kind, Sketch};
    /// let mut sketch = Sketch::new(4, Kind::Six).unwrap();
    /// sketch.extend([Coupon::new(0, 1), Coupon::new(1, 40)]);
    /// assert_eq!(sketch.sums(), [14.5, 2f64.powi(-40)]);
    /// ```
    pub fn sums(&self) -> [f64; 2] {
        let fed = self.fed();
        fed.record.sums(&fed.regs, &fed.aux).expect(GOOD)
    }
}

/// Takes coupons in order, or words that are coupons.
impl<C: Into<Coupon>> Extend<C> for Sketch {
    fn extend<I: IntoIterator<Item = C>>(&mut self, coupons: I) {
        coupons.into_iter().for_each(|coupon| self.update(coupon));
    }
}

/// The same kind, the same lg_k, the same registers.
impl PartialEq for Sketch {
    fn eq(&self, other: &Sketch) -> bool {
        self.record.0[..2] == other.record.0[..2] && self.registers() == other.registers()
    }
}

impl Eq for Sketch {}

#[cfg(test)]
mod tests {
    use super::*;

    /// Only time would show it elsewhere if each coupon were fed by itself.
    #[test]
    fn coupons_wait_for_others() {
        for (lg_k, most) in [(4, 64), (10, 64), (11, 128), (21, 1 << 17)] {
            let mut sketch = Sketch::new(lg_k, Kind::Eight).unwrap();
            for i in 0..2 * most {
                assert_eq!(sketch.waiting.len(), i % most);
                sketch.update(Coupon::new(i as u32, 1));
            }
            assert!(sketch.waiting.is_empty());
        }
    }
}
