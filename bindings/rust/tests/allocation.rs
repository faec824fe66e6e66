//! How much memory from_bytes takes: what the registers need for a header alone, and never more than lg_k justifies. How much feed_image
//! takes: what the exceptions need, whatever the image says that it has.

use std::alloc::{GlobalAlloc, Layout, System};
use std::cell::Cell;

use lintelpear::{Coupon, Kind, Refusal, Sketch};

struct Counted;

thread_local! {
    // Of this thread alone: the one that watches over the tests has memory of its own.
    static HELD: Cell<isize> = const { Cell::new(0) };
    static MOST: Cell<isize> = const { Cell::new(0) };
}

unsafe impl GlobalAlloc for Counted {
    unsafe fn alloc(&self, layout: Layout) -> *mut u8 {
        HELD.set(HELD.get() + layout.size() as isize);
        MOST.set(MOST.get().max(HELD.get()));
        unsafe { System.alloc(layout) }
    }

    unsafe fn dealloc(&self, at: *mut u8, layout: Layout) {
        HELD.set(HELD.get() - layout.size() as isize);
        unsafe { System.dealloc(at, layout) }
    }
}

#[global_allocator]
static COUNTED: Counted = Counted;

/// The most bytes held at once during some work, beyond those before.
fn held(work: impl FnOnce()) -> usize {
    let before = HELD.get();
    MOST.set(before);
    work();
    (MOST.get() - before) as usize
}

fn most(image: &[u8], refusal: Refusal) -> usize {
    held(|| assert_eq!(Sketch::from_bytes(image), Err(refusal)))
}

#[test]
fn registers_for_a_header_alone() {
    for mode in [2, 6, 10] {
        for lg_k in 0..=255u8 {
            let mut image = [0; 40];
            image[..8].copy_from_slice(&[10, 1, 7, lg_k, 0, 8, 0, mode]);
            if mode == 2 && lg_k <= 21 {
                image[36..].copy_from_slice(&(1u32 << lg_k).to_le_bytes());
            }
            let known = (4..=21).contains(&lg_k);
            let refusal = if known { Refusal::Short } else { Refusal::LgK };
            let allowed = if known { 1 << lg_k } else { 0 };
            assert!(most(&image, refusal) <= allowed, "mode {mode}, lg_k {lg_k}");
        }
    }
}

/// All registers are there, and a count that no words stand behind: registers, area and scratch of 2k words each.
#[test]
fn no_more_than_lg_k_justifies() {
    for lg_k in 4..=21 {
        let k = 1usize << lg_k;
        let mut image = vec![0; 44 + k / 2];
        image[..8].copy_from_slice(&[10, 1, 7, lg_k, 0, 0, 0, 2]);
        image[36..40].copy_from_slice(&(k as u32).to_le_bytes());
        assert!(most(&image, Refusal::AuxCount) <= 17 * k, "lg_k {lg_k}");
    }
}

/// A set of no words that says it has many: nothing for an empty sketch, and for one with exceptions scratch, as long as their area.
#[test]
fn nothing_for_a_count() {
    for kind in [Kind::Four, Kind::Six, Kind::Eight] {
        for count in [1, 1 << 16, 1 << 30, u32::MAX] {
            let mut image = [0; 12];
            image[..8].copy_from_slice(&[3, 1, 7, 21, 5, 8, 0, 9]);
            image[8..].copy_from_slice(&count.to_le_bytes());
            let mut sketch = Sketch::new(12, kind).unwrap();
            let refused = |sketch: &mut Sketch| {
                held(|| assert_eq!(sketch.feed_image(&image), Err(Refusal::Short)))
            };
            assert_eq!(refused(&mut sketch), 0);
            sketch.update(Coupon::new(0, 40));
            sketch.flush();
            let scratch = if kind == Kind::Four { 4096 / 64 * 4 } else { 0 };
            assert_eq!(refused(&mut sketch), scratch);
        }
    }
}

/// As many exceptions as there can be: area and scratch of 2k words each, with the area that is being grown.
#[test]
fn exceptions_of_an_image() {
    for lg_k in 4..=16 {
        let k = 1usize << lg_k;
        let mut image = vec![3, 1, 7, lg_k, 5, 8, 0, 9];
        image.extend((k as u32 - 1).to_le_bytes());
        let words = (1..k as u32).map(|slot| u32::from(Coupon::new(slot, 63)));
        image.extend(words.flat_map(u32::to_le_bytes));
        let mut sketch = Sketch::new(lg_k, Kind::Four).unwrap();
        let most = held(|| assert_eq!(sketch.feed_image(&image), Ok(k - 1)));
        assert!(most <= 8 * 3 * k, "lg_k {lg_k}: {most}");
    }
}
