//! What ../lintelpear.h declares. Nothing checks these lines against crates/c_api.

pub type Words = [u32; 5];

unsafe extern "C" {
    pub fn lp_start(
        kind: u32,
        lg_k: u32,
        record: *mut Words,
        regs: *mut u8,
        regs_len: usize,
        aux: *mut u32,
        aux_len: usize,
    ) -> u32;
    pub fn lp_feed(
        record: *mut Words,
        regs: *mut u8,
        regs_len: usize,
        aux: *mut u32,
        aux_len: usize,
        scratch: *mut u32,
        scratch_len: usize,
        coupons: *const u32,
        coupons_len: usize,
        taken: *mut usize,
    ) -> u32;
    pub fn lp_feed_image(
        record: *mut Words,
        regs: *mut u8,
        regs_len: usize,
        aux: *mut u32,
        aux_len: usize,
        scratch: *mut u32,
        scratch_len: usize,
        image: *const u8,
        image_len: usize,
        taken: *mut usize,
        place: *mut u32,
    ) -> u32;
    pub fn lp_unpack(
        record: *const Words,
        regs: *const u8,
        regs_len: usize,
        aux: *const u32,
        aux_len: usize,
        out: *mut u8,
        out_len: usize,
    ) -> u32;
    pub fn lp_view(record: *const Words, regs: *const u8, regs_len: usize) -> usize;
    pub fn lp_merge(
        target: *mut Words,
        tregs: *mut u8,
        tregs_len: usize,
        source: *const Words,
        sregs: *const u8,
        sregs_len: usize,
        saux: *const u32,
        saux_len: usize,
    ) -> u32;
    pub fn lp_sums(
        record: *const Words,
        regs: *const u8,
        regs_len: usize,
        aux: *const u32,
        aux_len: usize,
        sums: *mut [f64; 2],
    ) -> u32;
    pub fn lp_write(
        record: *const Words,
        regs: *const u8,
        regs_len: usize,
        aux: *const u32,
        aux_len: usize,
        out: *mut u8,
        out_len: usize,
        len: *mut usize,
    ) -> u32;
    pub fn lp_open(
        image: *const u8,
        image_len: usize,
        record: *mut Words,
        regs: *mut u8,
        regs_len: usize,
        aux: *mut u32,
        aux_len: usize,
        scratch: *mut u32,
        scratch_len: usize,
        place: *mut u32,
    ) -> u32;
}
