//! Verdicts on records with everything in force or nothing: both sides of each condition, and their order.

use crate::builder::SegmentBuilder;
use crate::connection::OUTDATED_AFTER;
use crate::segment::{ACK, FIN, RST, SYN};
use crate::serial::HALF;

use super::calls::CallList;
use super::records::{bare, behind, extended, full, segment, stamped, window_0, Start, SET};

pub fn add(calls: &mut CallList) {
    reading_before_the_clock(calls);
    clocks(calls);
    timestamps(calls);
    outdated(calls);
    unacceptable(calls);
    windows_of_0(calls);
    resets(calls);
    flags(calls);
    acks(calls);
    no_room(calls);
}

/// Each segment arrives at the record as it starts, at the clock of the opening.
fn arrive_each(calls: &mut CallList, start: Start, segments: &[SegmentBuilder]) {
    for segment in segments {
        arrive_at(calls, start, SET, segment);
    }
}

fn arrive_at(calls: &mut CallList, start: Start, clock: u64, segment: &SegmentBuilder) {
    start(calls);
    calls.arrive_at(clock, segment);
}

/// Taken, but for its flags.
fn flagged(seq: u32, flags: u8) -> SegmentBuilder {
    stamped(seq, 1_001, 50, 0).flags(flags)
}

/// Taken, but for its TSval.
fn valued(value: u32) -> SegmentBuilder {
    stamped(5_000, 1_001, value, 0)
}

/// E1 and E3 to E6 come before E8.
fn reading_before_the_clock(calls: &mut CallList) {
    extended(calls);
    calls.arrive_octets(SET - 1, &[]);
    calls.arrive_octets(SET - 1, &[0; 20]);
    for options in [[8, 9, 0, 0], [2, 3, 0, 0], [4, 2, 4, 2]] {
        calls.arrive_at(SET - 1, &segment(5_000, 1_001, ACK).options(&options));
    }
}

/// E8 comes before every verdict, and is not at the clock itself.
fn clocks(calls: &mut CallList) {
    extended(calls);
    calls.arrive_at(SET - 1, &segment(5_000, 1_001, RST));
    calls.arrive_at(SET - 1, &valued(50));
    calls.arrive_at(SET, &valued(50));
    bare(calls);
    calls.arrive_at(SET - 1, &segment(5_000, 1_001, ACK));
}

/// 21 and 22: in force or not, before 24, and TSval by serial distance.
fn timestamps(calls: &mut CallList) {
    let missing = [segment(5_000, 1_001, ACK), segment(4_999, 1_001, ACK)];
    arrive_each(calls, extended, &missing);
    arrive_each(calls, bare, &[segment(5_000, 1_001, ACK), valued(u32::MAX)]);
    let values = [49, u32::MAX, 50 + HALF + 1, 50 + HALF, 50 + HALF - 1];
    arrive_each(calls, extended, &values.map(valued));
    arrive_each(calls, extended, &[stamped(4_999, 1_001, 49, 0)]);
}

/// At exactly 24 days TS.Recent still counts; the clock is not cut to 32 bits.
fn outdated(calls: &mut CallList) {
    for idle in [OUTDATED_AFTER, OUTDATED_AFTER + 1, (1 << 32) + 4] {
        arrive_at(calls, extended, SET + idle, &valued(49));
    }
}

/// 23 and 24 on both sides of the window's edges, before 27 and 28.
fn unacceptable(calls: &mut CallList) {
    let segments = [
        flagged(4_999, RST),
        segment(4_999, 1_001, RST | SYN | ACK),
        stamped(70_535, 1_001, 49, 0).flags(RST),
        flagged(4_999, ACK),
        flagged(70_535, ACK),
        flagged(70_534, ACK),
        flagged(4_999, SYN),
        flagged(4_000, ACK).payload(1_000),
        flagged(4_000, ACK).payload(1_001),
        // FIN counts in LEN.
        flagged(4_999, ACK | FIN).payload(1),
    ];
    arrive_each(calls, extended, &segments);
}

/// A window of 0 lets in LEN 0 at RCV.NXT alone; 23 comes before 25.
fn windows_of_0(calls: &mut CallList) {
    let segments = [
        flagged(5_000, ACK),
        flagged(5_000, ACK | FIN),
        segment(5_000, 1_001, RST).payload(1),
        segment(5_000, 1_001, RST),
    ];
    arrive_each(calls, window_0, &segments);
}

/// 25 goes by RCV.NXT, not by Last.ACK.sent; 25 and 26 come before 27 and 28.
fn resets(calls: &mut CallList) {
    arrive_each(calls, behind, &[segment(5_000, 1_001, RST)]);
    let segments = [
        segment(5_000, 1_001, RST),
        flagged(5_000, RST | SYN),
        segment(5_001, 1_001, RST),
        stamped(5_001, 1_001, 49, 0).flags(RST | SYN | ACK),
    ];
    arrive_each(calls, extended, &segments);
}

/// 27 comes before 28 and 29, 28 before 29.
fn flags(calls: &mut CallList) {
    let segments = [
        flagged(5_000, SYN),
        stamped(5_000, 1_002, 50, 0).flags(SYN | ACK),
        stamped(5_000, 1_002, 50, 0).flags(0),
    ];
    arrive_each(calls, extended, &segments);
}

/// 29: one above SND.NXT and up to 2^31 - 1 above it; 2^31 above it is too old.
fn acks(calls: &mut CallList) {
    let acks = [1_002, 1_001 + HALF - 1, 1_001 + HALF, 1_001];
    let segments = acks.map(|ack| stamped(5_000, ack, 50, 0));
    arrive_each(calls, extended, &segments);
}

/// 30, after 29: a ninth range that is apart from eight, one that touches, one at RCV.NXT, an empty one, a bare FIN.
fn no_room(calls: &mut CallList) {
    let segments = [
        stamped(6_800, 1_002, 50, 0).payload(10),
        flagged(6_800, ACK).payload(10),
        flagged(6_711, ACK).payload(10),
        flagged(6_710, ACK).payload(10),
        flagged(5_000, ACK).payload(10),
        flagged(5_900, ACK),
        flagged(6_800, ACK | FIN),
    ];
    arrive_each(calls, full, &segments);
}
