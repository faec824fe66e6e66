//! Stand-in: the tables of the estimate after a merge. Estimates are not compared, so
//! nothing here may be reached; it refuses instead of answering from tables it lacks.
//!
//! Being a child of `hll`, this module is also where our door to its private items hangs.

mod door;

const ABSENT: &str = "oracle: the tables of the composite estimate are not here";

pub fn get_x_arr(_lg_k: u8) -> &'static [f64] {
    panic!("{ABSENT}")
}

pub fn get_x_arr_length() -> usize {
    panic!("{ABSENT}")
}

pub fn get_y_stride(_lg_k: u8) -> u32 {
    panic!("{ABSENT}")
}
