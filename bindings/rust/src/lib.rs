//! HyperLogLog registers. A [`Sketch`] owns its memory; [`lent`] has the calls below it, over memory that the caller lends.
//!
//! A sketch keeps k = 2^lg_k registers of 0 to 63 in one of three [`Kind`]s, and is fed [`Coupon`]s, a slot and a value each, also out of a
//! list or set. Images have the layout of Apache DataSketches. Hashing items into coupons and estimating how many there were is no part of this crate.
//!
//! ```
//! # fn main() -> Result<(), lintelpear::Refusal> {
//! use lintelpear::{Coupon, Kind, Sketch};
//!
//! let mut north = Sketch::new(12, Kind::Four)?;
//! north.extend((0..4000).map(|slot| Coupon::new(slot, 3)));
//! let mut south = Sketch::new(12, Kind::Six)?;
//! south.update(Coupon::new(7, 40));
//! let image = south.to_bytes();
//!
//! let mut both = Sketch::new(12, Kind::Eight)?;
//! both.merge(&north)?;
//! both.merge(&Sketch::from_bytes(&image)?)?;
//! assert_eq!(both.registers()[6..9], [3, 40, 3]);
//! # Ok(())
//! # }
//! ```
//!
//! The calls in `lent` are proved code behind a C interface, linked from an archive for x86-64 Linux: `liblintelpear.a` or `libc_api.a` in
//! the folder that LINTELPEAR_LIB names, else what `rt lib` wrote in crates/c_api. What this crate adds, the
//! declarations of that interface among it, is tested, not proved.

mod area;
mod coupon;
mod image;
mod kind;
pub mod lent;
mod list;
mod raw;
mod refusal;
mod sketch;

pub use coupon::Coupon;
pub use kind::Kind;
pub use refusal::Refusal;
pub use sketch::Sketch;
