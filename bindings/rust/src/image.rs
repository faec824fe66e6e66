//! A sketch as an image, and from one.

use crate::sketch::GOOD;
use crate::{Kind, Refusal, Sketch, area, lent};

/// What an image has before its registers.
const HEADER: usize = 40;

impl Sketch {
    /// The image, in the layout that Apache DataSketches has for registers: 40 bytes, the registers, and four bytes for each exception.
    ///
    /// ```
    /// # use lintelpear::{Coupon, Kind, Sketch};
    /// let mut sketch = Sketch::new(4, Kind::Four).unwrap();
    /// sketch.update(Coupon::new(3, 40));
    /// let image = sketch.to_bytes();
    /// assert_eq!(image.len(), 40 + 8 + 4);
    /// assert_eq!(Sketch::from_bytes(&image), Ok(sketch));
    /// ```
    #[doc(alias = "serialize")]
    pub fn to_bytes(&self) -> Vec<u8> {
        let fed = self.fed();
        let exceptions = fed.record.0[4] as usize;
        let mut image = vec![0; HEADER + fed.regs.len() + 4 * exceptions];
        fed.record.write(&fed.regs, &fed.aux, &mut image).expect(GOOD);
        image
    }

    /// The sketch of an image of registers. Ignored are bytes behind it, and in it bytes 8 to 31: the sums, which are worked out anew, and
    /// an estimate, which is not kept. The lists and sets that DataSketches writes while there are few coupons are refused, as any other
    /// bytes are; [`feed_image`](Sketch::feed_image) takes them.
    ///
    /// Any bytes may be handed in. The answer is the first of these that applies, as the table of refusals has them: [`Refusal::Short`]
    /// for under 40 bytes, [`Header`](Refusal::Header), [`Mode`](Refusal::Mode), [`LgK`](Refusal::LgK), [`Counts`](Refusal::Counts),
    /// [`LgArr`](Refusal::LgArr), [`Short`](Refusal::Short), [`Value`](Refusal::Value); for the earliest wrong exception word
    /// [`AuxEmpty`](Refusal::AuxEmpty), [`AuxTwice`](Refusal::AuxTwice), [`AuxLow`](Refusal::AuxLow); [`AuxCount`](Refusal::AuxCount),
    /// [`AuxMatch`](Refusal::AuxMatch), [`Spare`](Refusal::Spare), [`Tally`](Refusal::Tally).
    ///
    /// Bytes that are no whole image never take more memory than their registers would, at most 2 MiB; a whole one of kind 4 has room
    /// made for its exceptions, at most 2k words and as much scratch. An image made to do so can list exceptions that pile up in their
    /// table, where time grows with the square of their number.
    ///
    /// ```
    /// # use lintelpear::{Kind, Refusal, Sketch};
    /// let mut image = Sketch::new(4, Kind::Eight).unwrap().to_bytes();
    /// assert_eq!(Sketch::from_bytes(&image[..55]), Err(Refusal::Short));
    /// image[40] = 64;
    /// let refusal = Sketch::from_bytes(&image).unwrap_err();
    /// assert_eq!(refusal, Refusal::Value);
    /// assert_eq!(refusal.to_string(), "the image has a register over 63");
    /// ```
    #[doc(alias = "deserialize")]
    pub fn from_bytes(image: &[u8]) -> Result<Sketch, Refusal> {
        let mut regs = vec![0; register_bytes(image)];
        let mut aux = Vec::new();
        loop {
            let mut scratch = vec![0; aux.len()];
            match lent::open(image, &mut regs, &mut aux, &mut scratch) {
                Ok(record) => return Ok(Sketch { record, regs, aux, waiting: Vec::new() }),
                // Judged by the header and the image's length, before the registers are looked at: asking again costs little.
                Err(Refusal::NoRoom) => area::grow(&mut aux, 1 << image[3]),
                Err(refusal) => return Err(refusal),
            }
        }
    }
}

/// Those that an image's header asks for. Where it is no header the call refuses before it looks at lengths, so that any number will do.
fn register_bytes(image: &[u8]) -> usize {
    match image {
        [_, _, _, lg_k, _, _, _, mode, ..] => {
            Kind::of_mode(*mode).map_or(0, |kind| kind.register_bytes(*lg_k))
        }
        _ => 0,
    }
}
