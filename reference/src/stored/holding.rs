//! Held ranges at RCV.NXT 1,000: joined, brought first, full, advanced through; and across the number 0.

use crate::cases::data;
use crate::serial::Seq;

use super::calls::CallList;
use super::edges::{at_1000, open_at};

/// Where ranges of 10 numbers start, oldest first.
const STARTS: [u32; 8] = [1_100, 1_300, 1_500, 1_800, 1_600, 1_200, 1_700, 1_400];

pub fn add(calls: &mut CallList) {
    four(calls);
    farther(calls);
    room(calls);
    one_after_another(calls);
    acknowledged(calls);
}

/// A window of 900 from RCV.NXT 1,000 on, with the first ranges held.
fn holding(calls: &mut CallList, count: usize) {
    at_1000(calls, 900);
    for &start in &STARTS[..count] {
        calls.arrive(&data(Seq(start), 10));
    }
}

fn arrive_each(calls: &mut CallList, count: usize, parts: &[(u32, usize)]) {
    for &(seq, length) in parts {
        holding(calls, count);
        calls.arrive(&data(Seq(seq), length));
    }
}

fn four(calls: &mut CallList) {
    let parts = [
        // Touching two, one short of both, around three, inside one.
        (1_310, 190),
        (1_311, 188),
        (1_290, 600),
        (1_302, 3),
        // LEN 0, in order and not.
        (1_000, 0),
        (1_302, 0),
        // In order: one number before a range, up to it, and over a whole one into the next.
        (1_000, 99),
        (1_000, 100),
        (990, 315),
    ];
    arrive_each(calls, 4, &parts);
}

/// An advance that meets several ranges goes on through the farthest, whichever is the newest.
fn farther(calls: &mut CallList) {
    for starts in [
        [1_100, 1_200, 1_300],
        [1_300, 1_100, 1_200],
        [1_300, 1_200, 1_100],
    ] {
        for length in [300, 305] {
            at_1000(calls, 900);
            for start in starts {
                calls.arrive(&data(Seq(start), 10));
            }
            calls.arrive(&data(Seq(1_000), length));
        }
    }
}

/// Seven held and eight: apart from all, touching on either side, overlapping, in order, empty.
fn room(calls: &mut CallList) {
    arrive_each(calls, 7, &[(1_050, 10)]);
    let parts = [
        (1_050, 10),
        (1_050, 49),
        (1_111, 20),
        (1_390, 10),
        (1_050, 50),
        (1_110, 20),
        (1_105, 20),
        (1_000, 20),
        (990, 30),
        (1_050, 0),
    ];
    arrive_each(calls, 8, &parts);
}

/// One in order across the number 0, three above it, one that joins two of them, one that advances through those.
fn one_after_another(calls: &mut CallList) {
    let next = Seq(0).minus(200);
    open_at(calls, next, 1_000, 3);
    for offset in [0, 200, 400, 600, 300, 100] {
        calls.arrive(&data(next.plus(offset), 100));
    }
}

/// An acknowledgment moves Last.ACK.sent from 5,000 to 6,000 and leaves the range.
fn acknowledged(calls: &mut CallList) {
    open_at(calls, Seq(5_000), 1_400, 3);
    calls.arrive(&data(Seq(5_000), 1_000));
    calls.arrive(&data(Seq(6_100), 100));
    calls.acknowledge(20);
}
