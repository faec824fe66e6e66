//! The answer that document 01 gives a sketch handed in. This statement of good order is ours: the Rust has no such check.

use crate::order;
use crate::ours::{Ours, bytes};
use crate::room;

/// The first refusal, or 0. `fits`: the other buffer that SIZE speaks of is long enough.
pub fn sketch(ours: &Ours, fits: bool) -> u32 {
    let (record, regs, aux) = (ours.record.all(), ours.regs.all(), ours.aux.all());
    let [kind, lg_k] = [record[0], record[1]];
    if ![4, 6, 8].contains(&kind) {
        return 1;
    }
    if !(4..=21).contains(&lg_k) {
        return 2;
    }
    if regs.len() != bytes(kind as u8, lg_k as u8) || !fits {
        return 3;
    }
    let good = match kind {
        4 => good4(record, regs, aux),
        _ => plain(record, regs),
    };
    if good { 0 } else { 4 }
}

/// The same for a merge's target and for view: kind 8 alone, and no exception area.
pub fn eight(ours: &Ours) -> u32 {
    if ours.record.all()[0] != 8 { 1 } else { sketch(ours, true) }
}

fn plain(record: &[u32], regs: &[u8]) -> bool {
    let registers: Vec<u8> = match record[0] {
        8 => regs.to_vec(),
        _ => {
            let bit = |at: usize| regs[at / 8] >> (at % 8) & 1;
            (0..1 << record[1]).map(|at| (0..6).map(|i| bit(6 * at + i) << i).sum()).collect()
        }
    };
    let zeros = registers.iter().filter(|register| **register == 0).count();
    let spare = record[0] == 6 && regs[regs.len() - 1] != 0;
    !spare
        && registers.iter().all(|register| *register < 64)
        && (record[2], record[3] as usize, record[4]) == (0, zeros, 0)
}

fn good4(record: &[u32], regs: &[u8], aux: &[u32]) -> bool {
    let [_, lg_k, cur_min, num, count] = *record else { unreachable!() };
    let k = 1 << lg_k;
    let nibbles: Vec<u32> = (0..k).map(|at| (regs[at / 2] >> (at % 2 * 4) & 15) as u32).collect();
    let at_min = nibbles.iter().filter(|nibble| **nibble == 0).count();
    let low = nibbles.iter().filter(|nibble| **nibble < 15);
    let fifteens: Vec<usize> = (0..k).filter(|at| nibbles[*at] == 15).collect();
    if cur_min > 63 || low.max().is_some_and(|nibble| cur_min + nibble > 63) {
        return false;
    }
    if at_min == 0 || at_min != num as usize {
        return false;
    }
    let words = aux.iter().filter(|word| **word != 0);
    let mut slots: Vec<usize> = words.clone().map(|word| order::slot(*word) as usize).collect();
    slots.sort();
    order::good(aux, room::base(lg_k as u8), count as usize)
        && slots == fifteens
        && words.into_iter().all(|word| (word >> 26) >= cur_min + 15)
}
