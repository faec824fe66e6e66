//! The calls behind safe functions, each answer counted. Nothing checks these declarations against crates/c_api.
//! The calls ask for nothing, so nothing is tested before they are called.

use std::sync::atomic::{AtomicUsize, Ordering};

unsafe extern "C" {
    fn lp_start(
        kind: u32,
        lg_k: u32,
        record: *mut u32,
        regs: *mut u8,
        n: usize,
        aux: *mut u32,
        m: usize,
    ) -> u32;
    fn lp_feed(
        record: *mut u32,
        regs: *mut u8,
        n: usize,
        aux: *mut u32,
        m: usize,
        scratch: *mut u32,
        s: usize,
        coupons: *const u32,
        c: usize,
        taken: *mut usize,
    ) -> u32;
    fn lp_unpack(
        record: *const u32,
        regs: *const u8,
        n: usize,
        aux: *const u32,
        m: usize,
        out: *mut u8,
        o: usize,
    ) -> u32;
    fn lp_view(record: *const u32, regs: *const u8, n: usize) -> usize;
    fn lp_merge(
        target: *mut u32,
        tregs: *mut u8,
        t: usize,
        source: *const u32,
        sregs: *const u8,
        n: usize,
        saux: *const u32,
        m: usize,
    ) -> u32;
    #[cfg(feature = "sums")]
    fn lp_sums(
        record: *const u32,
        regs: *const u8,
        n: usize,
        aux: *const u32,
        m: usize,
        sums: *mut f64,
    ) -> u32;
    #[cfg(feature = "write")]
    fn lp_write(
        record: *const u32,
        regs: *const u8,
        n: usize,
        aux: *const u32,
        m: usize,
        out: *mut u8,
        o: usize,
        len: *mut usize,
    ) -> u32;
    #[cfg(feature = "open")]
    fn lp_open(
        image: *const u8,
        i: usize,
        record: *mut u32,
        regs: *mut u8,
        n: usize,
        aux: *mut u32,
        m: usize,
        scratch: *mut u32,
        s: usize,
        place: *mut u32,
    ) -> u32;
    #[cfg(feature = "lists")]
    fn lp_feed_image(
        record: *mut u32,
        regs: *mut u8,
        n: usize,
        aux: *mut u32,
        m: usize,
        scratch: *mut u32,
        s: usize,
        image: *const u8,
        i: usize,
        taken: *mut usize,
        place: *mut u32,
    ) -> u32;
}

/// Each call that answers a number, with the numbers that it can answer.
pub const CALLS: [(&str, &[u32]); 8] = [
    ("start", &[0, 1, 2, 3]),
    ("feed", &[0, 1, 2, 3, 4, 6]),
    ("unpack", &[0, 1, 2, 3, 4]),
    ("merge", &[0, 1, 2, 3, 4, 5]),
    ("sums", if cfg!(feature = "sums") { &[0, 1, 2, 3, 4] } else { &[] }),
    ("write", if cfg!(feature = "write") { &[0, 1, 2, 3, 4, 16] } else { &[] }),
    (
        "open",
        if cfg!(feature = "open") {
            &[0, 2, 3, 6, 7, 8, 9, 10, 11, 12, 14, 15, 21, 22, 23, 24, 25]
        } else {
            &[]
        },
    ),
    (
        "feed_image",
        if cfg!(feature = "lists") { &[0, 1, 2, 3, 4, 5, 6, 7, 8, 9, 26, 27] } else { &[] },
    ),
];

/// One above the largest answer.
pub const NUMBERS: usize = 28;

const NONE: [AtomicUsize; NUMBERS] = [const { AtomicUsize::new(0) }; NUMBERS];
static ANSWERS: [[AtomicUsize; NUMBERS]; 8] = [NONE; 8];

/// How often the call answered so.
pub fn answers(call: usize, number: usize) -> usize {
    ANSWERS[call][number].load(Ordering::Relaxed)
}

fn counted(call: usize, number: u32) -> u32 {
    if let Some(count) = ANSWERS[call].get(number as usize) {
        count.fetch_add(1, Ordering::Relaxed);
    }
    number
}

pub fn start(kind: u32, lg_k: u32, record: &mut [u32], regs: &mut [u8], aux: &mut [u32]) -> u32 {
    assert_eq!(record.len(), 5);
    let (n, m) = (regs.len(), aux.len());
    counted(0, unsafe {
        lp_start(kind, lg_k, record.as_mut_ptr(), regs.as_mut_ptr(), n, aux.as_mut_ptr(), m)
    })
}

pub fn feed(
    record: &mut [u32],
    regs: &mut [u8],
    aux: &mut [u32],
    scratch: &mut [u32],
    coupons: &[u32],
) -> (u32, usize) {
    assert_eq!(record.len(), 5);
    let mut taken = usize::MAX;
    let number = unsafe {
        lp_feed(
            record.as_mut_ptr(),
            regs.as_mut_ptr(),
            regs.len(),
            aux.as_mut_ptr(),
            aux.len(),
            scratch.as_mut_ptr(),
            scratch.len(),
            coupons.as_ptr(),
            coupons.len(),
            &mut taken,
        )
    };
    (counted(1, number), taken)
}

pub fn unpack(record: &[u32], regs: &[u8], aux: &[u32], out: &mut [u8]) -> u32 {
    assert_eq!(record.len(), 5);
    let (n, m, o) = (regs.len(), aux.len(), out.len());
    counted(2, unsafe {
        lp_unpack(record.as_ptr(), regs.as_ptr(), n, aux.as_ptr(), m, out.as_mut_ptr(), o)
    })
}

pub fn view(record: &[u32], regs: &[u8]) -> usize {
    assert_eq!(record.len(), 5);
    unsafe { lp_view(record.as_ptr(), regs.as_ptr(), regs.len()) }
}

pub fn merge(
    target: &mut [u32],
    tregs: &mut [u8],
    source: &[u32],
    sregs: &[u8],
    saux: &[u32],
) -> u32 {
    assert_eq!((target.len(), source.len()), (5, 5));
    counted(3, unsafe {
        lp_merge(
            target.as_mut_ptr(),
            tregs.as_mut_ptr(),
            tregs.len(),
            source.as_ptr(),
            sregs.as_ptr(),
            sregs.len(),
            saux.as_ptr(),
            saux.len(),
        )
    })
}

#[cfg(feature = "sums")]
pub fn sums(record: &[u32], regs: &[u8], aux: &[u32]) -> (u32, [f64; 2]) {
    assert_eq!(record.len(), 5);
    let mut sums = [f64::NAN; 2];
    let (n, m) = (regs.len(), aux.len());
    let number =
        unsafe { lp_sums(record.as_ptr(), regs.as_ptr(), n, aux.as_ptr(), m, sums.as_mut_ptr()) };
    (counted(4, number), sums)
}

#[cfg(feature = "write")]
pub fn write(record: &[u32], regs: &[u8], aux: &[u32], out: &mut [u8]) -> (u32, usize) {
    assert_eq!(record.len(), 5);
    let mut len = usize::MAX;
    let number = unsafe {
        lp_write(
            record.as_ptr(),
            regs.as_ptr(),
            regs.len(),
            aux.as_ptr(),
            aux.len(),
            out.as_mut_ptr(),
            out.len(),
            &mut len,
        )
    };
    (counted(5, number), len)
}

/// The answer and its place.
#[cfg(feature = "open")]
pub fn open(
    image: &[u8],
    record: &mut [u32],
    regs: &mut [u8],
    aux: &mut [u32],
    scratch: &mut [u32],
) -> (u32, u32) {
    assert_eq!(record.len(), 5);
    let mut place = u32::MAX;
    let number = unsafe {
        lp_open(
            image.as_ptr(),
            image.len(),
            record.as_mut_ptr(),
            regs.as_mut_ptr(),
            regs.len(),
            aux.as_mut_ptr(),
            aux.len(),
            scratch.as_mut_ptr(),
            scratch.len(),
            &mut place,
        )
    };
    (counted(6, number), place)
}

/// The answer, its place, and how many coupons were taken.
#[cfg(feature = "lists")]
pub fn feed_image(
    record: &mut [u32],
    regs: &mut [u8],
    aux: &mut [u32],
    scratch: &mut [u32],
    image: &[u8],
) -> (u32, u32, usize) {
    assert_eq!(record.len(), 5);
    let (mut taken, mut place) = (usize::MAX, u32::MAX);
    let number = unsafe {
        lp_feed_image(
            record.as_mut_ptr(),
            regs.as_mut_ptr(),
            regs.len(),
            aux.as_mut_ptr(),
            aux.len(),
            scratch.as_mut_ptr(),
            scratch.len(),
            image.as_ptr(),
            image.len(),
            &mut taken,
            &mut place,
        )
    };
    (counted(7, number), place, taken)
}
