//! Serial numbers and timestamps: distances, and numbers 2^31 apart, equal or wrapped, as records compare them.

use crate::builder::SegmentBuilder;
use crate::cases::{data, opening, syn, CLOCK, NEXT, UNA};
use crate::connection::Opening;
use crate::segment::{ACK, SYN};
use crate::serial::{Seq, Stamp, HALF};

use super::calls::CallList;

pub fn add(calls: &mut CallList) {
    distances(calls);
    stamps(calls);
    equal_numbers(calls);
    round_trip(calls);
    read_numbers(calls);
}

fn distances(calls: &mut CallList) {
    let pairs = [
        (u32::MAX - 5, 10),
        (10, u32::MAX - 5),
        (7, 7 + HALF),
        (7, 6 + HALF),
        (HALF, 0),
        (7, 7),
        (0, 0),
        (u32::MAX, u32::MAX - 1),
    ];
    for (a, b) in pairs {
        calls.distance(a, b);
    }
}

fn open_stamped(calls: &mut CallList, recent: Stamp, offset: u32) {
    let opening = Opening {
        timestamps: true,
        offset,
        ..opening()
    };
    calls.open(&opening, &syn().timestamps(recent, Stamp(0)));
}

/// TSval 2^31 from TS.Recent on either side, 2^31 - 1 before it, and equal to it.
fn stamps(calls: &mut CallList) {
    let pairs = [(0, HALF), (HALF, 0), (0, HALF - 1), (7, 7)];
    for (value, recent) in pairs {
        open_stamped(calls, Stamp(recent), 0);
        calls.arrive_at(CLOCK + 1, &data(NEXT, 0).timestamps(Stamp(value), Stamp(0)));
    }
}

/// SEQ equal to Last.ACK.sent and to RCV.NXT 7, TSval equal to TS.Recent.
fn equal_numbers(calls: &mut CallList) {
    let opening = Opening {
        timestamps: true,
        ..opening()
    };
    let syn = SegmentBuilder::new(Seq(6), UNA, SYN | ACK).timestamps(Stamp(7), Stamp(0));
    calls.open(&opening, &syn);
    calls.arrive_at(CLOCK + 1, &data(Seq(7), 1).timestamps(Stamp(7), Stamp(0)));
}

/// Our timestamp is 3 and TSecr 2^32 - 6: a sample of 9 ms.
fn round_trip(calls: &mut CallList) {
    open_stamped(calls, Stamp(1), 3u32.wrapping_sub(CLOCK as u32));
    calls.sent(1);
    let acking = SegmentBuilder::data(NEXT, UNA.plus(1), 0);
    calls.arrive(&acking.timestamps(Stamp(1), Stamp(u32::MAX - 5)));
}

/// Fields whose octets are 1 2, 4 5, 2 3 4 5 and 5 0.
fn read_numbers(calls: &mut CallList) {
    let mut segment = SegmentBuilder::new(Seq(0x0203_0405), Seq(0x0304_0500), ACK)
        .window(0x0500)
        .build();
    segment[..4].copy_from_slice(&[1, 2, 4, 5]);
    calls.read(&segment);
}
