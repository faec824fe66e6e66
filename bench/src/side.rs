//! What a sketch does on every side of a measurement: ours, the Rust's, and the Rust's without its estimator.

pub trait Side: Clone {
    /// What the crate merges into is not the sketch itself.
    type Target: Clone;

    fn feed(&mut self, coupons: &[u32]);
    /// The coupons of a list or a set.
    fn feed_image(&mut self, image: &[u8]);
    fn unpack(&self, out: &mut [u8]);
    fn target(&self) -> Self::Target;
    fn merge(target: &mut Self::Target, source: &Self);
    fn merged(target: &Self::Target) -> Self;
    /// The image, in what `out` had before or in its place.
    fn write(&self, out: &mut Vec<u8>);
    /// The image's sketch, in what this one had before or in its place.
    fn open(&mut self, image: &[u8]);
    /// An image whose last exception word has a slot twice, refused.
    fn refuse(&mut self, image: &[u8]);

    fn image(&self) -> Vec<u8> {
        let mut image = Vec::new();
        self.write(&mut image);
        image
    }
}
