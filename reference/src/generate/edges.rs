//! Random numbers beside the places where an answer turns.

use crate::random::Random;
use crate::serial::HALF;
use crate::timer::{MAX_EXPECTED, MAX_SAMPLE};

/// The number itself or one beside it.
pub fn beside(random: &mut Random, number: u32) -> u32 {
    let step = random.below_u32(3);
    number.wrapping_add(step).wrapping_sub(1)
}

/// The number itself or one up to two away from it.
pub fn around(random: &mut Random, number: u32) -> u32 {
    let step = random.below_u32(5);
    number.wrapping_add(step).wrapping_sub(2)
}

/// A serial number near the given one, 2^31 away from it, or anywhere.
pub fn serial_near(random: &mut Random, number: u32) -> u32 {
    match random.below(8) {
        0 => number,
        1 | 2 => beside(random, number),
        3 | 4 => beside(random, number.wrapping_add(HALF)),
        5 => number.wrapping_add(random.below_u32(1_000)),
        6 => number.wrapping_sub(random.below_u32(1_000)),
        _ => random.next_u32(),
    }
}

/// A start for a run of serial numbers, often just before they wrap.
pub fn serial_start(random: &mut Random) -> u32 {
    match random.below(6) {
        0 => 0,
        1 => u32::MAX,
        2 => u32::MAX - random.below_u32(400),
        3 => beside(random, HALF),
        _ => random.next_u32(),
    }
}

/// A round-trip time in ms, around the limit at times.
pub fn round_trip(random: &mut Random) -> u32 {
    match random.below(12) {
        0 => beside(random, MAX_SAMPLE),
        1 => MAX_SAMPLE,
        2 => MAX_SAMPLE + 1,
        3 => random.next_u32(),
        4 => random.below_u32(MAX_SAMPLE + 1),
        5 => 0,
        6 | 7 => random.below_u32(20_000),
        _ => random.below_u32(400),
    }
}

/// N of a sample, outside its limits at times.
pub fn expected(random: &mut Random) -> u32 {
    match random.below(20) {
        0 => 0,
        1 => MAX_EXPECTED + 1,
        2 => random.next_u32(),
        3..=6 => random.pick(&[1, MAX_EXPECTED]),
        _ => 1 + random.below_u32(MAX_EXPECTED),
    }
}
