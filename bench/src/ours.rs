//! Our calls, over the C interface, in memory that is lent once and used again. A refusal ends the run, but where it is asked for.

use crate::side::Side;
use lintelpear::Refusal;
use lintelpear::lent::{self, Record};

#[derive(Clone)]
pub struct Ours {
    record: Record,
    regs: Vec<u8>,
    aux: Vec<u32>,
    scratch: Vec<u32>,
}

impl Ours {
    /// An empty sketch, lent so many words for exceptions.
    pub fn lent(kind: u8, lg_k: u8, words: usize) -> Ours {
        let k = 1 << lg_k;
        let bytes = match kind {
            4 => k / 2,
            6 => k / 4 * 3 + 1,
            _ => k,
        };
        let (mut regs, mut aux, scratch) = (vec![0; bytes], vec![0; words], vec![0; words]);
        let record = lent::start(kind.into(), lg_k.into(), &mut regs, &mut aux).unwrap();
        Ours { record, regs, aux, scratch }
    }

    pub fn words(&self) -> usize {
        self.aux.len()
    }
}

impl Side for Ours {
    type Target = Ours;

    fn feed(&mut self, coupons: &[u32]) {
        let Ours { record, regs, aux, scratch } = self;
        record.feed(regs, aux, scratch, coupons).answer.unwrap();
    }

    fn feed_image(&mut self, image: &[u8]) {
        let Ours { record, regs, aux, scratch } = self;
        record.feed_image(regs, aux, scratch, image).answer.unwrap();
    }

    fn unpack(&self, out: &mut [u8]) {
        self.record.unpack(&self.regs, &self.aux, out).unwrap();
    }

    fn target(&self) -> Ours {
        self.clone()
    }

    fn merge(target: &mut Ours, source: &Ours) {
        let Ours { record, regs, .. } = target;
        record.merge(regs, &source.record, &source.regs, &source.aux).unwrap();
    }

    fn merged(target: &Ours) -> Ours {
        target.clone()
    }

    fn write(&self, out: &mut Vec<u8>) {
        // Only the first time: the buffer is kept.
        if out.is_empty() {
            out.resize(40 + self.regs.len() + 4 * self.record.0[4] as usize, 0);
        }
        self.record.write(&self.regs, &self.aux, out).unwrap();
    }

    fn open(&mut self, image: &[u8]) {
        let Ours { record, regs, aux, scratch } = self;
        *record = lent::open(image, regs, aux, scratch).unwrap();
    }

    fn refuse(&mut self, image: &[u8]) {
        let Ours { regs, aux, scratch, .. } = self;
        let last = (image.len() - 40 - regs.len()) / 4 - 1;
        let refusal = lent::open(image, regs, aux, scratch).unwrap_err();
        assert_eq!(refusal, Refusal::AuxTwice(last as u32));
    }
}
