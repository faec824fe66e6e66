//! What a sketch means: for each slot the largest value that came.

pub struct Model(pub Vec<u8>);

impl Model {
    pub fn new(lg_k: u8, coupons: &[u32]) -> Model {
        let k = 1usize << lg_k;
        let mut registers = vec![0u8; k];
        for coupon in coupons {
            let register = &mut registers[(coupon & 0x03ff_ffff) as usize % k];
            *register = (*register).max((coupon >> 26) as u8);
        }
        Model(registers)
    }

    pub fn sums(&self) -> [f64; 2] {
        let parts = |high: bool| {
            let chosen = self.0.iter().filter(move |register| (**register >= 32) == high);
            chosen.map(|register| 0.5f64.powi(i32::from(*register))).sum()
        };
        [parts(false), parts(true)]
    }
}
