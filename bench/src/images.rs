//! Writing and opening images, beside `serialize` and `deserialize`.

use crate::input::{CROWDED, Three, crowd, same, shuffled};
use crate::ours::Ours;
use crate::race::{Same, race, times};
use crate::rust::Rust;
use crate::side::Side;
use crate::table::{head, line};
use std::hint::black_box;

const COLUMNS: [&str; 5] = ["Kind", "lg_k", "Ours", "Rust", "Ours / Rust"];

pub fn write(filled: &[Three]) -> Result<(), String> {
    head(
        "Write an image: ns a register",
        "Filled sketches; ours into one buffer that is not cleared between, the Rust's into a new one each time.",
        &COLUMNS,
    );
    for three in filled {
        let times = times(three.registers());
        let mut ours = Same::new(Vec::new(), times, |out| black_box(&three.ours).write(out));
        let mut rust = Same::new(Vec::new(), times, |out| black_box(&three.rust).write(out));
        let took = race([&mut ours, &mut rust]);
        same(&format!("write, kind and lg_k {:?}", three.label()), &ours.made, &rust.made)?;
        line(&three.label(), took, three.registers());
    }
    Ok(())
}

pub fn open(filled: &[Three]) -> Result<(), String> {
    head(
        "Open an image: ns a register",
        "The Rust's images of filled sketches; ours into memory that an earlier sketch used, not cleared between, the Rust's into new memory each time.",
        &COLUMNS,
    );
    for three in filled {
        opened(three, &three.label(), &three.rust.image())?;
    }
    for three in filled.iter().filter(|three| three.exceptions == CROWDED) {
        let [kind, lg_k] = three.label();
        let label = [kind + ", words in random order", lg_k];
        opened(three, &label, &shuffled(three.rust.image()))?;
    }
    Ok(())
}

/// The line of one image.
fn opened(three: &Three, label: &[String; 2], image: &[u8]) -> Result<(), String> {
    let times = times(three.registers());
    // Another sketch, so that what is compared below was opened.
    let before = three.emptied();
    let mut ours = Same::new(before.ours, times, |sketch| sketch.open(black_box(image)));
    let mut rust = Same::new(before.rust, times, |sketch| sketch.open(black_box(image)));
    let took = race([&mut ours, &mut rust]);
    same(&format!("open, kind and lg_k {label:?}"), &ours.made.image(), &rust.made.image())?;
    line(label, took, three.registers());
    Ok(())
}

/// What an image can cost that is made to.
pub fn refuse() {
    head(
        "Refuse an image: ms",
        "Kind 4, all slots listed in the second form, an empty word behind each, and a count of 1; the last word alone is wrong, its slot twice.",
        &["Words", "lg_k", "Ours", "Rust", "Ours / Rust"],
    );
    for lg_k in [12, 16, 21] {
        for (order, step) in [("rising", 1), ("far apart", 0x9e37_79b1)] {
            let image = crowd(lg_k, step);
            let (ours, rust) = (Ours::lent(4, lg_k, 1 << 13), Rust::start(4, lg_k));
            let mut ours = Same::new(ours, 1, |sketch| sketch.refuse(black_box(&image)));
            let mut rust = Same::new(rust, 1, |sketch| sketch.refuse(black_box(&image)));
            let took = race([&mut ours, &mut rust]);
            line(&[order.to_string(), lg_k.to_string()], took, 1_000_000);
        }
    }
}
