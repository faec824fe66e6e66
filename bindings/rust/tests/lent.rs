//! Each lent call once, with what it should give, and once refused.

use lintelpear::Refusal;
use lintelpear::lent::{Fed, Record, open, start};

fn coupon(slot: u32, value: u32) -> u32 {
    (value << 26) | slot
}

#[test]
fn fed_merged_summed() {
    let (mut regs, mut aux, mut scratch) = ([0; 16], [7; 64], [7; 64]);
    let mut four = start(4, 5, &mut regs, &mut aux).unwrap();
    let coupons = [coupon(3, 2), coupon(19, 40), coupon(3, 1)];
    let fed = four.feed(&mut regs, &mut aux, &mut scratch, &coupons);
    assert_eq!(fed, Fed { taken: 3, answer: Ok(()) });
    let mut registers = [9; 32];
    four.unpack(&regs, &aux, &mut registers).unwrap();
    assert_eq!((registers[3], registers[19], registers[4]), (2, 40, 0));

    let mut values = [9; 16];
    let mut eight = start(8, 4, &mut values, &mut []).unwrap();
    eight.merge(&mut values, &four, &regs, &aux).unwrap();
    assert_eq!(eight.view(&values)[3], 40);
    assert!(eight.view(&values[..15]).is_empty());
    assert_eq!(eight.sums(&values, &[]), Ok([15.0, 2f64.powi(-40)]));
    assert_eq!(four.merge(&mut regs, &eight, &values, &[]), Err(Refusal::Kind));
}

#[test]
fn no_room() {
    let (mut regs, mut aux, mut scratch) = ([0; 8], [0; 16], [0; 16]);
    let mut four = start(4, 4, &mut regs, &mut aux).unwrap();
    let coupons: Vec<u32> = (0..16).map(|slot| coupon(slot, 63)).collect();
    let fed = four.feed(&mut regs, &mut aux, &mut scratch, &coupons);
    assert_eq!(fed, Fed { taken: 12, answer: Err(Refusal::NoRoom) });
    assert_eq!(four.0, [4, 4, 0, 4, 12]);
    assert_eq!(four.feed(&mut regs, &mut aux, &mut scratch[1..], &[]).answer, Err(Refusal::Size));
}

#[test]
fn written_and_opened() {
    let mut regs = [0; 13];
    let mut six = start(6, 4, &mut regs, &mut []).unwrap();
    six.feed(&mut regs, &mut [], &mut [], &[coupon(1, 63)]);
    assert_eq!(regs[..2], [192, 15]);
    let mut image = [0xff; 54];
    assert_eq!(six.write(&regs, &[], &mut image[..52]), Err(Refusal::Out));
    assert_eq!(six.write(&regs, &[], &mut image), Ok(53));
    assert_eq!(image[53], 0xff);
    let mut again = [1; 13];
    assert_eq!(open(&image[..53], &mut again, &mut [], &mut []), Ok(six));
    assert_eq!(again, regs);
    image[52] = 1;
    assert_eq!(open(&image, &mut again, &mut [], &mut []), Err(Refusal::Spare));
    assert_eq!(Record([8, 4, 0, 0, 0]).sums(&[0; 16], &[]), Err(Refusal::Damaged));
}
