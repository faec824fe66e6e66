//! Coupons: what a sketch is fed.

const SLOT_BITS: u32 = 26;
const SLOTS: u32 = 1 << SLOT_BITS;
const LARGEST: u8 = 63;

/// A slot and a value in one word: the value in the upper 6 bits, the slot in the lower 26. It raises the register of its slot modulo k
/// to its value, if that is larger.
///
/// Every word is a coupon; one of value 0 raises nothing.
#[derive(Clone, Copy, Debug, PartialEq, Eq, Hash)]
pub struct Coupon(u32);

impl Coupon {
    /// The coupon of a slot and a value. A slot counts modulo 2^26, which changes nothing, since k divides that; a value over 63 counts
    /// as 63, the most that a register holds.
    ///
    /// ```
    /// use lintelpear::Coupon;
    ///
    /// let coupon = Coupon::new(3, 5);
    /// assert_eq!((coupon.slot(), coupon.value()), (3, 5));
    /// assert_eq!(coupon, Coupon::from((5 << 26) | 3));
    /// ```
    pub const fn new(slot: u32, value: u8) -> Coupon {
        let value = if value > LARGEST { LARGEST } else { value };
        Coupon(((value as u32) << SLOT_BITS) | (slot % SLOTS))
    }

    /// The slot, below 2^26.
    pub const fn slot(self) -> u32 {
        self.0 % SLOTS
    }

    /// The value, at most 63.
    pub const fn value(self) -> u8 {
        (self.0 >> SLOT_BITS) as u8
    }
}

impl From<u32> for Coupon {
    fn from(word: u32) -> Coupon {
        Coupon(word)
    }
}

impl From<Coupon> for u32 {
    fn from(coupon: Coupon) -> u32 {
        coupon.0
    }
}
