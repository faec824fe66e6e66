//! Unpacking, beside a plain loop over each kind's `get`.

use crate::input::Three;
use crate::race::{Same, race, times};
use crate::side::Side;
use crate::table::{head, line};
use std::hint::black_box;

pub fn all(filled: &[Three]) -> Result<(), String> {
    head(
        "Unpack: ns a register",
        "Filled sketches, into one buffer of k bytes that is not cleared between.",
        &["Kind", "lg_k", "Ours", "Rust", "Ours / Rust"],
    );
    for three in filled {
        let (k, times) = (three.registers(), times(three.registers()));
        let mut ours = Same::new(vec![0; k], times, |out| black_box(&three.ours).unpack(out));
        let mut rust = Same::new(vec![0; k], times, |out| black_box(&three.rust).unpack(out));
        let took = race([&mut ours, &mut rust]);
        if ours.made != rust.made {
            return Err(format!("unpack, kind and lg_k {:?}", three.label()));
        }
        line(&three.label(), took, k);
    }
    Ok(())
}
