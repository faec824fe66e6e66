//! The proved leaves behind safe functions. Nothing checks these declarations against crates/c_leaves, and no proof
//! reaches a caller in Rust; so each function first tests what the leaf's `requires` asks.

use crate::order;

unsafe extern "C" {
    fn lp_base_for(lg_k: u8) -> usize;
    fn lp_table_size(base: usize, count: usize) -> usize;
    fn lp_find(table: *const u32, n: usize, slot: u32) -> u64;
    fn lp_get(table: *const u32, n: usize, slot: u32) -> u8;
    fn lp_replace(table: *mut u32, n: usize, slot: u32, value: u8);
    fn lp_insert(
        area: *mut u32,
        n: usize,
        scratch: *mut u32,
        m: usize,
        size: usize,
        count: usize,
        word: u32,
    ) -> usize;
    fn lp_build(area: *mut u32, n: usize, scratch: *mut u32, m: usize, base: usize, top: usize);
    fn lp_rebuild(
        area: *mut u32,
        n: usize,
        scratch: *mut u32,
        m: usize,
        base: usize,
        size: usize,
        limit: u32,
    ) -> usize;
    fn lp_check(area: *const u32, n: usize, base: usize, count: usize) -> u8;
    fn lp_six_get_raw(regs: *const u8, n: usize, slot: u32) -> u8;
    fn lp_six_put_raw(regs: *mut u8, n: usize, slot: u32, value: u8);
    fn lp_six_unpack(regs: *const u8, n: usize, out: *mut u8, m: usize);
    fn lp_four_get_raw(regs: *const u8, n: usize, slot: u32) -> u8;
    fn lp_four_put_raw(regs: *mut u8, n: usize, slot: u32, value: u8);
    fn lp_four_unpack(regs: *const u8, n: usize, out: *mut u8, m: usize);
}

fn based(base: usize) -> bool {
    base.is_power_of_two() && (4..=1 << 18).contains(&base)
}

fn room(table: &[u32]) -> bool {
    table.len().is_power_of_two() && table.contains(&0)
}

fn has(table: &[u32], slot: u32) -> bool {
    table.iter().any(|word| *word != 0 && order::slot(*word) == slot)
}

pub fn base_for(lg_k: u8) -> usize {
    assert!(lg_k < 27);
    unsafe { lp_base_for(lg_k) }
}

pub fn table_size(base: usize, count: usize) -> usize {
    assert!(based(base) && count < 1 << 26);
    unsafe { lp_table_size(base, count) }
}

#[derive(Debug, PartialEq)]
pub enum Find {
    Found(usize),
    Empty(usize),
}

pub fn find(table: &[u32], slot: u32) -> Find {
    assert!(room(table));
    let answer = unsafe { lp_find(table.as_ptr(), table.len(), slot) };
    match answer >> 63 {
        0 => Find::Empty(answer as usize),
        _ => Find::Found((answer & !(1 << 63)) as usize),
    }
}

pub fn get(table: &[u32], slot: u32) -> Option<u8> {
    assert!(room(table));
    let answer = unsafe { lp_get(table.as_ptr(), table.len(), slot) };
    (answer != 255).then_some(answer)
}

pub fn replace(table: &mut [u32], slot: u32, value: u8) {
    assert!(room(table) && slot < 1 << 26 && value < 64 && has(table, slot));
    unsafe { lp_replace(table.as_mut_ptr(), table.len(), slot, value) }
}

pub fn insert(
    area: &mut [u32],
    scratch: &mut [u32],
    size: usize,
    count: usize,
    word: u32,
) -> usize {
    assert!(size.is_power_of_two() && 4 <= size && size <= area.len() && 4 * count <= 3 * size);
    assert!(order::used(&area[..size]) == count && !has(&area[..size], order::slot(word)));
    let grows = 3 * size < 4 * (count + 1);
    assert!(word != 0 && (!grows || 2 * size <= area.len() && size <= scratch.len()));
    let (n, m) = (area.len(), scratch.len());
    unsafe { lp_insert(area.as_mut_ptr(), n, scratch.as_mut_ptr(), m, size, count, word) }
}

pub fn build(area: &mut [u32], scratch: &mut [u32], base: usize, top: usize) {
    let mut slots: Vec<u32> = scratch[top..].iter().map(|word| order::slot(*word)).collect();
    let count = slots.len();
    slots.sort();
    assert!(slots.windows(2).all(|pair| pair[0] < pair[1]) && !scratch[top..].contains(&0));
    let size = order::size(base, count);
    assert!(based(base) && size <= area.len() && size <= scratch.len());
    assert!(order::used(area) == 0);
    let (n, m) = (area.len(), scratch.len());
    unsafe { lp_build(area.as_mut_ptr(), n, scratch.as_mut_ptr(), m, base, top) }
}

pub fn rebuild(
    area: &mut [u32],
    scratch: &mut [u32],
    base: usize,
    size: usize,
    limit: u32,
) -> usize {
    let count = order::used(&area[..size]);
    assert!(based(base) && 0 < count && size == order::size(base, count));
    assert!(order::good(area, base, count));
    assert!(0 < limit && area.len() <= scratch.len());
    let (n, m) = (area.len(), scratch.len());
    unsafe { lp_rebuild(area.as_mut_ptr(), n, scratch.as_mut_ptr(), m, base, size, limit) }
}

pub fn check(area: &[u32], base: usize, count: usize) -> bool {
    assert!(based(base));
    match unsafe { lp_check(area.as_ptr(), area.len(), base, count) } {
        0 => false,
        1 => true,
        other => panic!("lp_check answered {other}"),
    }
}

/// Cells of 6 or of 4 bits.
#[derive(Clone, Copy, Debug, PartialEq)]
pub enum Cells {
    Six,
    Four,
}

impl Cells {
    fn inside(self, n: usize, slot: u32) -> bool {
        match self {
            Cells::Six => slot < 1 << 26 && slot as usize * 6 / 8 + 1 < n,
            Cells::Four => (slot as usize) < 2 * n,
        }
    }

    pub fn get_raw(self, regs: &[u8], slot: u32) -> u8 {
        assert!(self.inside(regs.len(), slot));
        match self {
            Cells::Six => unsafe { lp_six_get_raw(regs.as_ptr(), regs.len(), slot) },
            Cells::Four => unsafe { lp_four_get_raw(regs.as_ptr(), regs.len(), slot) },
        }
    }

    pub fn put_raw(self, regs: &mut [u8], slot: u32, value: u8) {
        assert!(self.inside(regs.len(), slot));
        let n = regs.len();
        match self {
            Cells::Six => {
                assert!(value < 64);
                unsafe { lp_six_put_raw(regs.as_mut_ptr(), n, slot, value) }
            }
            Cells::Four => {
                assert!(value < 16);
                unsafe { lp_four_put_raw(regs.as_mut_ptr(), n, slot, value) }
            }
        }
    }

    pub fn unpack(self, regs: &[u8], k: usize) -> Vec<u8> {
        // No cell can be 255: what is not written is seen.
        let mut out = vec![255; k];
        let (p, n) = (regs.as_ptr(), regs.len());
        match self {
            Cells::Six => {
                assert!(k <= 1 << 26 && k % 4 == 0 && n == k / 4 * 3 + 1);
                unsafe { lp_six_unpack(p, n, out.as_mut_ptr(), k) }
            }
            Cells::Four => {
                assert!(k == 2 * n);
                unsafe { lp_four_unpack(p, n, out.as_mut_ptr(), k) }
            }
        }
        out
    }
}
