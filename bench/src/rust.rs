//! The original Rust, as it is and with an estimator that does nothing: the same program around two builds of the crate.

use crate::side::Side;

macro_rules! side {
    ($name:ident, $krate:ident) => {
        #[derive(Clone)]
        pub struct $name($krate::hll::HllSketch);

        impl $name {
            pub fn start(kind: u8, lg_k: u8) -> $name {
                $name($krate::Door::start(kind, lg_k))
            }
        }

        impl Side for $name {
            type Target = $krate::hll::HllUnion;

            fn feed(&mut self, coupons: &[u32]) {
                $krate::Door::feed(&mut self.0, coupons);
            }

            /// For kind 8 a `HllUnion` does the same, but looks for the kind at every coupon; for the others the crate has no way of its own.
            fn feed_image(&mut self, image: &[u8]) {
                let few = $krate::hll::HllSketch::deserialize(image).unwrap();
                $krate::Door::feed_few(&mut self.0, &few);
            }

            fn unpack(&self, out: &mut [u8]) {
                $krate::Door::unpack(&self.0, out);
            }

            /// A union that has met one sketch holds its registers as kind 8.
            fn target(&self) -> $krate::hll::HllUnion {
                let mut union = $krate::hll::HllUnion::new(self.0.lg_config_k()).unwrap();
                union.update(&self.0);
                union
            }

            fn merge(target: &mut $krate::hll::HllUnion, source: &$name) {
                target.update(&source.0);
            }

            fn merged(target: &$krate::hll::HllUnion) -> $name {
                $name(target.to_sketch($krate::hll::HllType::Hll8))
            }

            fn write(&self, out: &mut Vec<u8>) {
                *out = self.0.serialize();
            }

            fn open(&mut self, image: &[u8]) {
                self.0 = $krate::hll::HllSketch::deserialize(image).unwrap();
            }

            fn refuse(&mut self, image: &[u8]) {
                assert!($krate::hll::HllSketch::deserialize(image).is_err());
            }
        }
    };
}

side!(Rust, oracle);
side!(Bare, bare);
