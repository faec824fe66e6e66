//! A sketch of ours in lent memory, and its comparison with the Rust's.

use crate::call;
use crate::lent::Lent;
use crate::report::difference;
use oracle::State;

#[derive(Clone)]
pub struct Ours {
    pub record: Lent<u32>,
    pub regs: Lent<u8>,
    pub aux: Lent<u32>,
    pub scratch: Lent<u32>,
}

/// Register bytes, by document 01.
pub fn bytes(kind: u8, lg_k: u8) -> usize {
    let k = 1 << lg_k;
    match kind {
        4 => k / 2,
        6 => k / 4 * 3 + 1,
        _ => k,
    }
}

impl Ours {
    /// Memory that others have used before.
    pub fn lend(regs: usize, aux: usize, scratch: usize) -> Ours {
        Ours {
            record: Lent::noise(5),
            regs: Lent::noise(regs),
            aux: Lent::noise(aux),
            scratch: Lent::noise(scratch),
        }
    }

    pub fn start(&mut self, kind: u32, lg_k: u32) -> u32 {
        let Ours { record, regs, aux, .. } = self;
        call::start(kind, lg_k, record.all_mut(), regs.all_mut(), aux.all_mut())
    }

    /// The answer, and how many coupons were taken.
    pub fn feed(&mut self, coupons: &[u32]) -> (u32, usize) {
        let Ours { record, regs, aux, scratch } = self;
        call::feed(record.all_mut(), regs.all_mut(), aux.all_mut(), scratch.all_mut(), coupons)
    }

    pub fn unpack(&self, out: &mut Lent<u8>) -> u32 {
        call::unpack(self.record.all(), self.regs.all(), self.aux.all(), out.all_mut())
    }

    pub fn view(&self) -> usize {
        call::view(self.record.all(), self.regs.all())
    }

    pub fn merge(&mut self, source: &Ours) -> u32 {
        let (record, regs, aux) = (source.record.all(), source.regs.all(), source.aux.all());
        call::merge(self.record.all_mut(), self.regs.all_mut(), record, regs, aux)
    }

    #[cfg(feature = "sums")]
    pub fn sums(&self) -> (u32, [f64; 2]) {
        call::sums(self.record.all(), self.regs.all(), self.aux.all())
    }

    #[cfg(feature = "write")]
    pub fn write(&self, out: &mut Lent<u8>) -> (u32, usize) {
        call::write(self.record.all(), self.regs.all(), self.aux.all(), out.all_mut())
    }

    /// The answer, and its place.
    #[cfg(feature = "open")]
    pub fn open(&mut self, image: &[u8]) -> (u32, u32) {
        let Ours { record, regs, aux, scratch } = self;
        call::open(image, record.all_mut(), regs.all_mut(), aux.all_mut(), scratch.all_mut())
    }

    /// The answer, its place, and how many coupons were taken.
    #[cfg(feature = "lists")]
    pub fn feed_image(&mut self, image: &[u8]) -> (u32, u32, usize) {
        let Ours { record, regs, aux, scratch } = self;
        call::feed_image(record.all_mut(), regs.all_mut(), aux.all_mut(), scratch.all_mut(), image)
    }

    /// Nothing was written around the lent slices.
    pub fn intact(&self) -> Result<(), String> {
        let kept =
            [self.record.intact(), self.regs.intact(), self.aux.intact(), self.scratch.intact()];
        match kept.iter().position(|kept| !kept) {
            None => Ok(()),
            Some(at) => Err(format!(
                "memory around the {} was written",
                ["record", "registers", "exception area", "scratch"][at]
            )),
        }
    }

    /// All lent memory but scratch is the same.
    pub fn same(&self, other: &Ours) -> bool {
        self.record.all() == other.record.all()
            && self.regs.all() == other.regs.all()
            && self.aux.all() == other.aux.all()
    }

    /// All that is held and shown is the Rust's; the sums too, unless the Rust has them from an image.
    pub fn compare(&self, rust: &State, sums: bool) -> Result<(), String> {
        let State { kind, lg_k, cur_min, num_at_cur_min, registers, table, image } = rust;
        let count = table.iter().filter(|word| **word != 0).count() as u32;
        let record = [*kind as u32, *lg_k as u32, *cur_min as u32, *num_at_cur_min, count];
        same("the record", self.record.all(), &record)?;
        same("the register bytes", self.regs.all(), &image[40..40 + bytes(*kind, *lg_k)])?;
        if *kind == 4 {
            let (ours, behind) = self.aux.all().split_at(table.len().min(self.aux.all().len()));
            same("the exception table's words", ours, table)?;
            if behind.iter().any(|word| *word != 0) {
                return Err(format!("behind the exception table is {behind:08x?}"));
            }
        } else if !self.aux.is_noise() {
            return Err(format!("kind {kind} changed the exception area"));
        }
        let mut out = Lent::noise(registers.len());
        answered("unpack", self.unpack(&mut out), 0)?;
        same("the unpacked registers", out.all(), registers)?;
        if !out.intact() {
            return Err("memory around the unpacked registers was written".into());
        }
        let shown = if *kind == 8 { registers.len() } else { 0 };
        if self.view() != shown {
            return Err(format!("view shows {} registers, not {shown}", self.view()));
        }
        #[cfg(feature = "sums")]
        {
            let (number, two) = self.sums();
            answered("sums", number, 0)?;
            let ours: Vec<u8> = two.iter().flat_map(|sum| sum.to_le_bytes()).collect();
            if sums {
                same("the sums' bytes", &ours, &image[16..32])?;
            }
        }
        let _ = sums;
        self.intact()
    }
}

pub fn same<T: PartialEq + std::fmt::LowerHex>(
    what: &str,
    ours: &[T],
    rust: &[T],
) -> Result<(), String> {
    match difference(ours, rust) {
        None => Ok(()),
        Some(fault) => Err(format!("{what} {fault}")),
    }
}

pub fn answered<T: PartialEq + std::fmt::Debug>(
    call: &str,
    ours: T,
    wanted: T,
) -> Result<(), String> {
    match ours == wanted {
        true => Ok(()),
        false => Err(format!("{call} answers {ours:?}, not {wanted:?}")),
    }
}
