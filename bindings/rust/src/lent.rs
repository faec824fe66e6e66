//! The calls over memory that the caller lends. Each one answers for every content of what it is lent, so a reference is all that it asks.
//! What is not in good order it refuses, and leaves what it was lent as it was, scratch excepted; only feed and feed_image at NO_ROOM have
//! taken the coupons that they count.
//!
//! Register bytes: k/2, 3k/4+1 or k for kinds 4, 6, 8, where k = 2^lg_k. Only kind 4 uses the exception area, of any number of words (2k are
//! always enough), and scratch, at least as many. A coupon has its value in the upper 6 bits and its slot in the lower 26.

use crate::raw;
use crate::refusal::{Refusal, answer, answer_at};

/// What feed and feed_image give back: how many coupons were taken, and why not all of them.
#[derive(Clone, Copy, Debug, PartialEq, Eq)]
pub struct Fed {
    pub taken: usize,
    pub answer: Result<(), Refusal>,
}

/// A sketch's record: kind, lg_k, cur_min, num_at_cur_min, aux_count. Any words may stand here.
#[derive(Clone, Copy, Debug, Default, PartialEq, Eq)]
pub struct Record(pub [u32; 5]);

/// An empty sketch: register bytes and, for kind 4, the exception area become zeros.
pub fn start(kind: u32, lg_k: u32, regs: &mut [u8], aux: &mut [u32]) -> Result<Record, Refusal> {
    let mut record = Record::default();
    let (n, m) = (regs.len(), aux.len());
    let number = unsafe {
        raw::lp_start(kind, lg_k, &mut record.0, regs.as_mut_ptr(), n, aux.as_mut_ptr(), m)
    };
    answer(number).map(|()| record)
}

/// The sketch of an image, whose kind and lg_k, bytes 7 and 3, say how many register bytes there have to be.
pub fn open(
    image: &[u8],
    regs: &mut [u8],
    aux: &mut [u32],
    scratch: &mut [u32],
) -> Result<Record, Refusal> {
    let mut record = Record::default();
    let mut place = 0;
    let number = unsafe {
        raw::lp_open(
            image.as_ptr(),
            image.len(),
            &mut record.0,
            regs.as_mut_ptr(),
            regs.len(),
            aux.as_mut_ptr(),
            aux.len(),
            scratch.as_mut_ptr(),
            scratch.len(),
            &mut place,
        )
    };
    answer_at(number, place).map(|()| record)
}

impl Record {
    /// Takes coupons in order. At NO_ROOM record and memory hold those taken; any other refusal takes none.
    pub fn feed(
        &mut self,
        regs: &mut [u8],
        aux: &mut [u32],
        scratch: &mut [u32],
        coupons: &[u32],
    ) -> Fed {
        let mut taken = 0;
        let number = unsafe {
            raw::lp_feed(
                &mut self.0,
                regs.as_mut_ptr(),
                regs.len(),
                aux.as_mut_ptr(),
                aux.len(),
                scratch.as_mut_ptr(),
                scratch.len(),
                coupons.as_ptr(),
                coupons.len(),
                &mut taken,
            )
        };
        Fed { taken, answer: answer(number) }
    }

    /// Takes the coupons of a compact list or set as feed does, from the image's own bytes. Every word is looked at before any is fed.
    pub fn feed_image(
        &mut self,
        regs: &mut [u8],
        aux: &mut [u32],
        scratch: &mut [u32],
        image: &[u8],
    ) -> Fed {
        let (mut taken, mut place) = (0, 0);
        let number = unsafe {
            raw::lp_feed_image(
                &mut self.0,
                regs.as_mut_ptr(),
                regs.len(),
                aux.as_mut_ptr(),
                aux.len(),
                scratch.as_mut_ptr(),
                scratch.len(),
                image.as_ptr(),
                image.len(),
                &mut taken,
                &mut place,
            )
        };
        Fed { taken, answer: answer_at(number, place) }
    }

    /// The k registers, a byte each.
    pub fn unpack(&self, regs: &[u8], aux: &[u32], out: &mut [u8]) -> Result<(), Refusal> {
        let (n, m, o) = (regs.len(), aux.len(), out.len());
        answer(unsafe {
            raw::lp_unpack(&self.0, regs.as_ptr(), n, aux.as_ptr(), m, out.as_mut_ptr(), o)
        })
    }

    /// The registers of a kind 8 sketch, uncopied; none where a check refuses.
    pub fn view<'a>(&self, regs: &'a [u8]) -> &'a [u8] {
        &regs[..unsafe { raw::lp_view(&self.0, regs.as_ptr(), regs.len()) }]
    }

    /// Merges a sketch into this one of kind 8, whose lg_k is no larger.
    pub fn merge(
        &mut self,
        regs: &mut [u8],
        source: &Record,
        source_regs: &[u8],
        source_aux: &[u32],
    ) -> Result<(), Refusal> {
        answer(unsafe {
            raw::lp_merge(
                &mut self.0,
                regs.as_mut_ptr(),
                regs.len(),
                &source.0,
                source_regs.as_ptr(),
                source_regs.len(),
                source_aux.as_ptr(),
                source_aux.len(),
            )
        })
    }

    /// kxq0 and kxq1, exact.
    pub fn sums(&self, regs: &[u8], aux: &[u32]) -> Result<[f64; 2], Refusal> {
        let mut sums = [0.0; 2];
        let (n, m) = (regs.len(), aux.len());
        let number = unsafe { raw::lp_sums(&self.0, regs.as_ptr(), n, aux.as_ptr(), m, &mut sums) };
        answer(number).map(|()| sums)
    }

    /// Writes the image over the front of `out`; answers its length.
    pub fn write(&self, regs: &[u8], aux: &[u32], out: &mut [u8]) -> Result<usize, Refusal> {
        let mut len = 0;
        let number = unsafe {
            raw::lp_write(
                &self.0,
                regs.as_ptr(),
                regs.len(),
                aux.as_ptr(),
                aux.len(),
                out.as_mut_ptr(),
                out.len(),
                &mut len,
            )
        };
        answer(number).map(|()| len)
    }
}
