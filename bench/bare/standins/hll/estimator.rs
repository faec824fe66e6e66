//! Stand-in: an estimator that keeps nothing, so that what is left of the Rust's `update` is what ours does too. Nothing here asks for
//! an estimate.

use crate::common::NumStdDev;

#[derive(Debug, Clone, Copy, PartialEq)]
pub enum EstimateState {
    Hip(f64),
}

#[derive(Debug, Clone, PartialEq)]
pub struct Estimator;

const ABSENT: &str = "bare: there is no estimator";

impl Estimator {
    pub fn new(_lg_k: u8) -> Self {
        Estimator
    }

    pub fn from_serialized(_hip: f64, _kxq0: f64, _kxq1: f64, _out_of_order: bool) -> Self {
        Estimator
    }

    pub fn update(&mut self, _lg_k: u8, _old: u8, _new: u8) {}

    pub fn restore_kxq(&mut self, _kxq0: f64, _kxq1: f64) {}

    pub fn invalidate_hip(&mut self) {}

    pub fn estimate_state(&self) -> EstimateState {
        EstimateState::Hip(0.0)
    }

    pub fn restore_estimate_state(&mut self, _state: EstimateState) {}

    pub fn uses_composite_estimate(&self) -> bool {
        true
    }

    pub fn hip_accum(&self) -> f64 {
        0.0
    }

    pub fn kxq0(&self) -> f64 {
        0.0
    }

    pub fn kxq1(&self) -> f64 {
        0.0
    }

    pub fn estimate(&self, _lg_k: u8, _cur_min: u8, _num: u32) -> f64 {
        panic!("{ABSENT}")
    }

    pub fn upper_bound(&self, _lg_k: u8, _cur_min: u8, _num: u32, _dev: NumStdDev) -> f64 {
        panic!("{ABSENT}")
    }

    pub fn lower_bound(&self, _lg_k: u8, _cur_min: u8, _num: u32, _dev: NumStdDev) -> f64 {
        panic!("{ABSENT}")
    }
}
