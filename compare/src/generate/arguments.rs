//! Argument buffers, good and damaged.

use crate::buffers::{arguments, put_word, words};
use crate::random::Random;

/// The buffer of a call with any bytes in its outputs, sometimes with bytes behind them.
pub fn good(random: &mut Random, token: u32, inputs: &[u32], outputs: usize) -> Vec<u8> {
    let outputs: Vec<u32> = (0..outputs).map(|_| random.word()).collect();
    let mut args = arguments(token, inputs, &outputs);
    if random.one_in(4) {
        let mut tail = vec![0; random.between(1, 40)];
        random.fill(&mut tail);
        args.extend(tail);
    }
    args
}

fn other_count(random: &mut Random) -> u32 {
    match random.below(4) {
        0 => random.pick(&[0, 15, 16, 17, 18, 0x8000_0000, 0xffff_fffe, 0xffff_ffff]),
        1 => random.pick(&[0, 1, 2, 3, 4, 5, 6]),
        2 => random.pick(&[0x4000_0000, 0x4000_0002, 0x0100_0002, 0x0001_0001]),
        _ => random.between(0, 17) as u32,
    }
}

fn other_token(random: &mut Random) -> u32 {
    random.pick(&[0, 1, 2, 3, 4, 5, 6, 0x0100_0000, 0x0400_0000, 0x0104, 0x0101, 0x8000_0001, 0xffff_ffff])
}

/// Damages a whole buffer of a call in one place.
pub fn damage(random: &mut Random, args: &mut Vec<u8>) {
    match random.below(7) {
        0 => put_word(args, 0, other_token(random)),
        1 => put_word(args, 4, other_count(random)),
        2 => put_word(args, 8, other_count(random)),
        3 => put_word(args, 8, 0),
        4 => args.truncate(random.pick(&[0, 1, 4, 8, 11, 12, 13, 16])),
        5 => {
            let cut = random.between(1, 5).min(args.len());
            args.truncate(args.len() - cut);
        }
        _ => args.truncate(random.between(0, args.len())),
    }
}

/// A buffer of any token and counts, about as long as it declares.
pub fn any(random: &mut Random) -> Vec<u8> {
    let (inputs, outputs) = (other_count(random), other_count(random));
    let mut args = words(&[other_token(random), inputs, outputs]);
    let declared = 12 + 4 * (u64::from(inputs) + u64::from(outputs));
    let length = match random.below(4) {
        0 => declared.saturating_sub(1),
        1 => declared + random.below(9) as u64,
        2 => random.pick(&[0, 3, 8, 11, 12, 13, 140, 144]),
        _ => declared,
    };
    let length = length.min(160) as usize;
    let mut tail = vec![0; length.saturating_sub(12)];
    random.fill(&mut tail);
    args.extend(tail);
    args.truncate(length);
    args
}
