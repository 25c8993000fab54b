//! The fields of segments: each flag, each option by itself and all together, one to four SACK blocks.

use crate::segment::{ACK, FIN, MAX_SEGMENT, SYN};

use super::calls::CallList;

/// MSS 258, SACK-permitted, timestamps, window scale 15.
const ALL: [u8; 20] = [
    2, 4, 1, 2, 4, 2, 8, 10, 11, 12, 13, 14, 21, 22, 23, 24, 1, 3, 3, 15,
];

pub fn add(calls: &mut CallList) {
    flags(calls);
    options(calls);
    blocks(calls);
    refused(calls);
}

/// A segment with these flags, options, a multiple of 4 octets, and payload; the low half of octet 12 is 15.
fn segment(flags: u8, options: &[u8], payload: &[u8]) -> Vec<u8> {
    let offset = 5 + options.len() as u8 / 4;
    let mut octets = vec![
        1,
        2,
        255,
        254,
        1,
        2,
        3,
        4,
        5,
        6,
        7,
        8,
        16 * offset + 15,
        flags,
    ];
    octets.extend([18, 52, 9, 10, 1, 3]);
    octets.extend_from_slice(options);
    octets.extend_from_slice(payload);
    octets
}

/// The longest segment that is readable.
pub fn longest() -> Vec<u8> {
    segment(SYN | FIN, &[], &[0; MAX_SEGMENT - 20])
}

/// Three octets that tell the eight flags apart, then SYN and FIN.
fn flags(calls: &mut CallList) {
    for flags in [0b1010_1010, 0b1100_1100, 0b1111_0000, FIN, SYN | FIN] {
        calls.read_by_both(&segment(flags, &[], &[7, 7]));
    }
    calls.read_by_both(&segment(ACK, &[], &[]));
}

fn options(calls: &mut CallList) {
    let lists: [&[u8]; 5] = [
        &[2, 4, 1, 2],
        &[1, 3, 3, 15],
        &[4, 2, 1, 1],
        &[1, 1, 8, 10, 11, 12, 13, 14, 21, 22, 23, 24],
        &ALL,
    ];
    for options in lists {
        calls.read_by_both(&segment(ACK, options, &[7, 7]));
    }
    calls.read_by_both(&segment(0xc2, &ALL, &[]));
}

/// SACK after two NOPs, each edge with a highest octet of its own; the first on a SYN.
fn blocks(calls: &mut CallList) {
    for (count, flags) in [(1, SYN), (2, ACK), (3, ACK), (4, ACK)] {
        let mut options = vec![1, 1, 5, 8 * count + 2];
        for edge in 1..=2 * count {
            options.extend([edge, 1, 2, 3]);
        }
        calls.read_by_both(&segment(flags, &options, &[7, 7]));
    }
}

/// E3 to E6 in such segments.
fn refused(calls: &mut CallList) {
    calls.read_by_both(&[64; 20]);
    for options in [[254, 1, 0, 0], [3, 4, 0, 0], [4, 2, 4, 2]] {
        calls.read_by_both(&segment(ACK, &options, &[7, 7]));
    }
}
