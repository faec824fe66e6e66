//! Document 01 as a plain model, for comparison with the Rust: registers as a list of bytes,
//! for kind 4 the exception table beside them, and the strict reading of images. Written for
//! clarity, not for speed.

use crate::aux_fault::aux_fault;

/// The table's size while it has few words, as an exponent of two for each lg_k.
const BASE: [u32; 27] =
    [0, 2, 2, 2, 2, 2, 2, 3, 3, 3, 4, 4, 5, 5, 6, 7, 8, 9, 10, 11, 12, 13, 14, 15, 16, 17, 18];

#[derive(Clone, Debug)]
pub struct Model {
    pub kind: u8,
    pub lg_k: u8,
    pub cur_min: u8,
    pub registers: Vec<u8>,
    pub table: Vec<u32>,
}

pub(crate) fn value(word: u32) -> u8 {
    (word >> 26) as u8
}

pub(crate) fn slot(word: u32) -> usize {
    (word & 0x3ff_ffff) as usize
}

/// The place of a slot's word, or the first empty place on its walk.
fn walk(table: &[u32], wanted: usize) -> usize {
    let size = table.len();
    let mut place = wanted % size;
    while table[place] != 0 && slot(table[place]) != wanted {
        place = (place + ((wanted / size) | 1)) % size;
    }
    place
}

fn kind(mode: u8) -> u8 {
    match mode {
        2 => 4,
        6 => 6,
        _ => 8,
    }
}

fn register_bytes(kind: u8, k: usize) -> usize {
    match kind {
        4 => k / 2,
        6 => 3 * k / 4 + 1,
        _ => k,
    }
}

/// What the register bytes say of a slot: a nibble, six bits or a byte.
pub(crate) fn packed(kind: u8, bytes: &[u8], at: usize) -> u8 {
    let bit = |at: usize| bytes[at / 8] >> (at % 8) & 1;
    (0..kind as usize).map(|i| bit(kind as usize * at + i) << i).sum()
}

pub(crate) fn number(image: &[u8], at: usize) -> u32 {
    u32::from_le_bytes(image[at..at + 4].try_into().unwrap())
}

fn listed_count(image: &[u8]) -> usize {
    match (image[7], image[5] & 8, number(image, 36)) {
        (6 | 10, _, _) | (_, _, 0) => 0,
        (_, 0, _) => 1 << image[4],
        (_, _, count) => count as usize,
    }
}

/// The exception words an image lists, empty ones included.
pub(crate) fn listed(image: &[u8]) -> impl Iterator<Item = u32> {
    let start = 40 + register_bytes(kind(image[7]), 1 << image[3]);
    (0..listed_count(image)).map(move |i| number(image, start + 4 * i))
}

/// The number document 01 gives an image, 0 if it opens, and the place that document 02 gives with
/// 21 to 25, 0 with any other. SIZE and NO_ROOM are left out: they speak of lent memory, which the
/// Rust does not have.
pub fn said(image: &[u8]) -> (u8, u32) {
    if image.len() < 40 {
        return (7, 0);
    }
    if image[..3] != [10, 1, 7] {
        return (8, 0);
    }
    if ![2, 6, 10].contains(&image[7]) {
        return (9, 0);
    }
    if !(4..=21).contains(&image[3]) {
        return (2, 0);
    }
    let (kind, k, cur_min) = (kind(image[7]), 1usize << image[3], image[6]);
    let (num, count) = (number(image, 32) as usize, number(image, 36) as usize);
    let second = image[5] & 8 == 0;
    if num > k || count > k || cur_min > 63 || kind != 4 && (cur_min, count) != (0, 0) {
        return (10, 0);
    }
    if kind == 4 && second && count != 0 && image[4] > 22 {
        return (11, 0);
    }
    if image.len() < 40 + register_bytes(kind, k) + 4 * listed_count(image) {
        return (7, 0);
    }
    let bytes = &image[40..];
    let registers: Vec<u8> = (0..k).map(|at| packed(kind, bytes, at)).collect();
    let over = |register: &u8| match kind {
        4 => *register < 15 && cur_min + register > 63,
        _ => *register > 63,
    };
    if registers.iter().any(over) {
        return (12, 0);
    }
    if kind == 4 {
        if let Some(fault) = aux_fault(image) {
            return fault;
        }
    }
    if kind == 6 && bytes[register_bytes(6, k) - 1] != 0 {
        return (14, 0);
    }
    if num != registers.iter().filter(|register| **register == 0).count() || kind == 4 && num == 0 {
        return (15, 0);
    }
    (0, 0)
}

/// The number alone.
pub fn refusal(image: &[u8]) -> u8 {
    said(image).0
}

fn taken(table: &[u32]) -> impl Iterator<Item = u32> {
    table.iter().copied().filter(|word| *word != 0)
}

impl Model {
    pub fn new(kind: u8, lg_k: u8) -> Model {
        Model { kind, lg_k, cur_min: 0, registers: vec![0; 1 << lg_k], table: Vec::new() }
    }

    pub fn feed(&mut self, coupon: u32) {
        let at = slot(coupon) % self.registers.len();
        let (old, new) = (self.registers[at], value(coupon));
        if new <= old {
            return;
        }
        self.registers[at] = new;
        if self.kind != 4 {
            return;
        }
        if new >= self.cur_min + 15 {
            let word = (new as u32) << 26 | at as u32;
            if old >= self.cur_min + 15 {
                let place = walk(&self.table, at);
                self.table[place] = word;
            } else {
                self.insert(word);
            }
        }
        // Each single rise rebuilds: the order of the words depends on it.
        while self.registers.iter().all(|register| *register > self.cur_min) {
            self.cur_min += 1;
            let floor = self.cur_min + 15;
            for word in taken(&std::mem::take(&mut self.table)).filter(|w| value(*w) >= floor) {
                self.insert(word);
            }
        }
    }

    /// The word goes into the small table first, and then takes part in its growth.
    fn insert(&mut self, word: u32) {
        if self.table.is_empty() {
            self.table = vec![0; 1 << BASE[self.lg_k as usize]];
        }
        let place = walk(&self.table, slot(word));
        self.table[place] = word;
        if 4 * taken(&self.table).count() > 3 * self.table.len() {
            let mut larger = vec![0; 2 * self.table.len()];
            for word in taken(&self.table) {
                let place = walk(&larger, slot(word));
                larger[place] = word;
            }
            self.table = larger;
        }
    }

    /// Opens a good image: its registers, and its exceptions inserted in the order listed.
    pub fn open(image: &[u8]) -> Model {
        let kind = kind(image[7]);
        let mut model = Model::new(kind, image[3]);
        model.cur_min = image[6];
        let k = model.registers.len();
        for at in 0..k {
            model.registers[at] = packed(kind, &image[40..], at);
            if kind == 4 {
                model.registers[at] += model.cur_min;
            }
        }
        for word in listed(image).filter(|word| *word != 0) {
            let at = slot(word) % k;
            model.registers[at] = value(word);
            model.insert(word & 0xfc00_0000 | at as u32);
        }
        model
    }

    /// Merges into kind 8: slots modulo the target's k, the larger value wins.
    pub fn merge(&mut self, source: &Model) {
        let k = self.registers.len();
        for (at, register) in source.registers.iter().enumerate() {
            self.registers[at % k] = self.registers[at % k].max(*register);
        }
    }

    pub fn num_at_cur_min(&self) -> u32 {
        self.registers.iter().filter(|register| **register == self.cur_min).count() as u32
    }

    /// The image we write: flag 16, hip +0, and the sums from the counts of each value.
    pub fn image(&self) -> Vec<u8> {
        let (mode, flags) = match self.kind {
            4 => (2, 24),
            6 => (6, 16),
            _ => (10, 16),
        };
        let sum = |values: std::ops::Range<u8>| -> f64 {
            let top = values.end - 1;
            let parts = self.registers.iter().filter(|register| values.contains(register));
            let scaled: u64 = parts.map(|register| 1u64 << (top - register)).sum();
            scaled as f64 / (1u64 << top) as f64
        };
        let words: Vec<u32> = taken(&self.table).collect();
        let mut image = vec![10, 1, 7, self.lg_k, 0, flags, self.cur_min, mode];
        image.extend(0f64.to_le_bytes());
        image.extend(sum(0..32).to_le_bytes());
        image.extend(sum(32..64).to_le_bytes());
        image.extend(self.num_at_cur_min().to_le_bytes());
        image.extend((words.len() as u32).to_le_bytes());
        image.extend(self.bytes());
        image.extend(words.iter().flat_map(|word| word.to_le_bytes()));
        image
    }

    fn bytes(&self) -> Vec<u8> {
        let k = self.registers.len();
        let nibble = |at: usize| (self.registers[at] - self.cur_min).min(15);
        match self.kind {
            4 => (0..k / 2).map(|i| nibble(2 * i) | nibble(2 * i + 1) << 4).collect(),
            6 => {
                let mut bytes = vec![0; register_bytes(6, k)];
                for bit in 0..6 * k {
                    bytes[bit / 8] |= (self.registers[bit / 6] >> (bit % 6) & 1) << (bit % 8);
                }
                bytes
            }
            _ => self.registers.clone(),
        }
    }
}
