//! The door to `hll`: what its public face does not offer, done with its own functions.
//!
//! A child module sees its parent's private items, and an `impl` is known wherever its type
//! is; so the methods below can be called from outside without a change to the Rust.

use crate::hll::array4::Array4;
use crate::hll::array6::Array6;
use crate::hll::array8::Array8;
use crate::hll::aux_map::AuxMap;
use crate::hll::container::Container;
use crate::hll::mode::Mode;
use crate::hll::{Coupon, HllSketch};
use crate::lists::Layout;
use crate::{Door, Names};

impl Names for Door {
    type AuxMap = AuxMap;
}

impl Door {
    pub fn coupon(word: u32) -> Coupon {
        Coupon(word)
    }

    /// An empty register sketch; `HllSketch::new` would begin as a list of coupons.
    pub fn start(kind: u8, lg_k: u8) -> HllSketch {
        let mode = match kind {
            4 => Mode::Array4(Array4::new(lg_k)),
            6 => Mode::Array6(Array6::new(lg_k)),
            _ => Mode::Array8(Array8::new(lg_k)),
        };
        HllSketch::from_mode(lg_k, mode)
    }

    /// Each register as the sketch itself reads it; none if it holds a list or a set.
    pub fn registers(sketch: &HllSketch) -> Option<Vec<u8>> {
        let mut registers = vec![0; 1 << sketch.lg_config_k()];
        Self::unpack(sketch, &mut registers).then_some(registers)
    }

    /// The same into a buffer of as many bytes; false if there are none.
    pub fn unpack(sketch: &HllSketch, out: &mut [u8]) -> bool {
        match sketch.mode() {
            Mode::Array4(array) => {
                (0..).zip(out).for_each(|(slot, byte)| *byte = array.get(slot));
            }
            Mode::Array6(array) => {
                (0..).zip(out).for_each(|(slot, byte)| *byte = array.get(slot));
            }
            Mode::Array8(array) => out.copy_from_slice(array.values()),
            Mode::List { .. } | Mode::Set { .. } => return false,
        }
        true
    }

    /// A list or a set: which, the count it keeps, and its coupons in the order it writes them; none if it holds registers.
    pub fn coupons(sketch: &HllSketch) -> Option<(Layout, usize, Vec<u32>)> {
        let (layout, container) = Self::few(sketch)?;
        Some((layout, container.len(), container.iter().map(Coupon::raw).collect()))
    }

    fn few(sketch: &HllSketch) -> Option<(Layout, &Container)> {
        match sketch.mode() {
            Mode::List { list, .. } => Some((Layout::List, list.container())),
            Mode::Set { set, .. } => Some((Layout::Set, set.container())),
            Mode::Array4(_) | Mode::Array6(_) | Mode::Array8(_) => None,
        }
    }

    /// Each coupon by the kind's own `update`. `update_with_coupon` would look for the kind at every one.
    pub fn feed(sketch: &mut HllSketch, coupons: &[u32]) {
        Self::each(sketch, coupons.iter().map(|word| Coupon(*word)));
    }

    /// The same of the coupons of a list or a set, as `union.rs` takes them one by one; of registers none.
    pub fn feed_few(sketch: &mut HllSketch, few: &HllSketch) {
        let coupons = Self::few(few).into_iter().flat_map(|(_, container)| container.iter());
        Self::each(sketch, coupons);
    }

    fn each(sketch: &mut HllSketch, coupons: impl Iterator<Item = Coupon>) {
        match sketch.mode_mut() {
            Mode::Array4(array) => coupons.for_each(|coupon| array.update(coupon)),
            Mode::Array6(array) => coupons.for_each(|coupon| array.update(coupon)),
            Mode::Array8(array) => coupons.for_each(|coupon| array.update(coupon)),
            Mode::List { .. } | Mode::Set { .. } => {
                coupons.for_each(|coupon| sketch.update_with_coupon(coupon))
            }
        }
    }

    /// Merges by the target's own two functions, chosen as `union.rs` chooses them.
    pub fn merge(target: &mut HllSketch, source: &HllSketch) -> Result<(), &'static str> {
        let (lg_k, source_lg_k) = (target.lg_config_k(), source.lg_config_k());
        let registers = Self::registers(source).ok_or("the source holds no registers")?;
        let Mode::Array8(array) = target.mode_mut() else {
            return Err("the target is not of kind 8");
        };
        if source_lg_k == lg_k {
            array.merge_array_same_lgk(&registers);
        } else {
            array.merge_array_with_downsample(&registers, source_lg_k);
        }
        Ok(())
    }
}
