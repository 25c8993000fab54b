//! Whole answers to arrivals: what a take changes in a record, and that nothing else changes it.

use crate::builder::SegmentBuilder;
use crate::connection::OUTDATED_AFTER;
use crate::options::NOP;
use crate::script::Call;
use crate::segment::{ACK, FIN, RST, SYN};
use crate::serial::{Seq, Stamp, HALF};
use crate::timer::MAX_SAMPLE;

use super::calls::CallList;
use super::records::{
    bare, behind, extended, full, outstanding, outstanding_with_sack, outstanding_with_timestamps,
    ranges, sampled, segment, stamped, unacknowledged, window_10, SET,
};

/// The clock of most arrivals here, at which our timestamp is 157.
const LATER: u64 = 150;

pub fn add(calls: &mut CallList) {
    samples(calls);
    no_samples(calls);
    not_in_force(calls);
    recent(calls);
    recent_outdated(calls);
    last_ack_sent(calls);
    cut_fin(calls);
    blocks(calls);
    full_record(calls);
    ranges_without_sack(calls);
    not_taken(calls);
    other_calls(calls);
    every_call(calls);
}

/// A segment with the peer's SACK blocks behind two NOPs.
fn with_blocks(segment: SegmentBuilder, blocks: &[(u32, u32)]) -> SegmentBuilder {
    segment.options(&[NOP, NOP]).sack(&ranges(blocks))
}

/// The TSecr that gives this sample at a clock.
fn echo_of(clock: u64, sample: u32) -> u32 {
    Stamp::of_clock(clock, 7).minus(sample).0
}

/// New ACKs: with FIN and payload, at the limit of a sample and past it, a second one, one above Last.ACK.sent.
fn samples(calls: &mut CallList) {
    extended(calls);
    calls.arrive_at(
        LATER,
        &stamped(5_000, 1_001, 60, 100).flags(ACK | FIN).payload(500),
    );
    for sample in [MAX_SAMPLE, MAX_SAMPLE + 1] {
        extended(calls);
        calls.arrive_at(LATER, &stamped(5_000, 1_001, 60, echo_of(LATER, sample)));
    }
    sampled(calls);
    calls.arrive_at(SET, &stamped(5_000, 2_500, 50, echo_of(SET, 2_003)));
    unacknowledged(calls);
    calls.arrive_at(SET, &stamped(5_001, 2_500, 50, 0));
}

/// An ACK that is not new, ACKs that are not taken, and timestamps that are not in force.
fn no_samples(calls: &mut CallList) {
    let segments = [
        stamped(5_000, 1_000, 50, 100),
        stamped(5_000, 1_000, 60, 100).payload(500),
        stamped(5_000, 1_002, 60, 100).payload(500),
        stamped(4_000, 1_001, 60, 100).payload(500),
    ];
    for segment in &segments {
        extended(calls);
        calls.arrive_at(LATER, segment);
    }
    extended(calls);
    calls.arrive_at(SET - 1, &stamped(5_000, 1_001, 60, 100).payload(500));
    calls.arrive_octets(LATER, &[]);
    for (ack, length) in [(1_000, 3), (1_001, 500)] {
        bare(calls);
        calls.arrive_at(LATER, &stamped(5_000, ack, 60, 100).payload(length));
    }
}

/// Timestamps and SACK blocks where they are not in force, and four blocks where SACK alone is.
fn not_in_force(calls: &mut CallList) {
    let blocks = [(2_600, 2_700), (2_800, 2_900)];
    outstanding(calls);
    calls.arrive_at(LATER, &with_blocks(stamped(5_000, 2_500, 60, 100), &blocks));
    outstanding_with_timestamps(calls);
    calls.arrive_at(SET, &with_blocks(stamped(5_000, 1_001, 0, 0), &blocks));
    outstanding_with_sack(calls);
    let four = [
        (4_000, 4_100),
        (2_000, 2_100),
        (3_000, 3_100),
        (1_100, 1_200),
    ];
    calls.arrive_at(LATER, &with_blocks(segment(5_000, 1_001, ACK), &four));
}

/// TSval 2^31 from TS.Recent is recorded; that of a segment above Last.ACK.sent is not.
fn recent(calls: &mut CallList) {
    extended(calls);
    calls.arrive_at(LATER, &stamped(5_000, 1_000, 50 + HALF, 0));
    extended(calls);
    calls.arrive_at(LATER, &stamped(5_001, 1_000, 60, 0).payload(1));
}

/// An old TSval replaces an outdated TS.Recent, but not from above Last.ACK.sent.
fn recent_outdated(calls: &mut CallList) {
    let after = SET + OUTDATED_AFTER + 1;
    for (seq, clock) in [(5_001, after), (5_000, after), (5_000, SET + (1 << 32) + 4)] {
        extended(calls);
        calls.arrive_at(clock, &stamped(seq, 1_000, 49, 0));
    }
}

/// Last.ACK.sent counts for TS.Recent, not RCV.NXT; an acknowledgment moves it.
fn last_ack_sent(calls: &mut CallList) {
    behind(calls);
    calls.arrive_at(LATER, &stamped(5_000, 1_001, 60, 0));
    behind(calls);
    calls.arrive_at(LATER, &stamped(4_900, 1_001, 60, 0).payload(101));
    behind(calls);
    calls.acknowledge_at(SET, 32);
}

/// The window cuts FIN off.
fn cut_fin(calls: &mut CallList) {
    window_10(calls);
    calls.arrive_at(
        SET,
        &stamped(5_000, 1_001, 50, 0).flags(ACK | FIN).payload(10),
    );
}

/// By SND.UNA and SND.NXT after the take: at SND.UNA, up to SND.NXT, in their order, past SND.NXT, empty.
fn blocks(calls: &mut CallList) {
    let lists = [
        (2_500, 107, [(2_500, 2_600), (2_600, 5_001)]),
        (1_001, 0, [(4_000, 4_100), (2_000, 3_000)]),
        (1_001, 0, [(4_000, 5_002), (2_000, 2_000)]),
    ];
    for (ack, echo, blocks) in lists {
        unacknowledged(calls);
        calls.arrive_at(SET, &with_blocks(stamped(5_000, ack, 50, echo), &blocks));
    }
}

/// Eight held: one that touches two is joined and put first; RCV.NXT advances through one, and there is room again.
fn full_record(calls: &mut CallList) {
    full(calls);
    calls.arrive_at(SET, &stamped(6_410, 1_001, 50, 0).payload(90));
    full(calls);
    calls.arrive_at(SET, &stamped(5_000, 1_001, 50, 0).payload(1_000));
    calls.arrive_at(SET, &stamped(6_800, 1_001, 50, 0).payload(10));
}

/// A third range is put first where SACK is not in force too.
fn ranges_without_sack(calls: &mut CallList) {
    bare(calls);
    for seq in [6_000, 5_600] {
        // An ACK before SND.UNA leaves the send side.
        calls.arrive_at(LATER, &segment(seq, 999, ACK).payload(100));
    }
    calls.arrive_at(LATER, &segment(7_000, 1_000, ACK).payload(600));
}

/// A refusal of reading, E8, and every verdict but 0 leave the record.
fn not_taken(calls: &mut CallList) {
    let whole = |seq, flags| stamped(seq, 1_001, 60, 100).flags(flags).payload(500);
    extended(calls);
    calls.arrive_at(
        LATER,
        &segment(5_000, 1_001, ACK)
            .options(&[8, 9, 0, 0])
            .payload(500),
    );
    calls.arrive_at(SET - 1, &whole(5_000, ACK | FIN));
    calls.arrive_at(LATER, &segment(5_000, 1_001, ACK | FIN).payload(500));
    calls.arrive_at(
        LATER,
        &stamped(5_000, 1_001, 49, 100).flags(ACK | FIN).payload(500),
    );
    calls.arrive_at(LATER, &stamped(4_999, 1_001, 60, 100).flags(RST));
    calls.arrive_at(
        LATER,
        &with_blocks(whole(4_499, ACK), &[(1_000, 1_001), (1_000, 1_001)]),
    );
    calls.arrive_at(LATER, &whole(5_000, RST | ACK));
    calls.arrive_at(LATER, &whole(5_001, RST | ACK));
    calls.arrive_at(LATER, &whole(5_000, SYN | ACK));
    calls.arrive_at(LATER, &whole(5_000, FIN));
    calls.arrive_at(
        LATER,
        &stamped(5_000, 1_002, 60, 100).flags(ACK | FIN).payload(500),
    );
    let too_old = Seq(1_000).minus(8_193).0;
    calls.arrive_at(
        LATER,
        &stamped(5_000, too_old, 60, 100)
            .flags(ACK | FIN)
            .payload(500),
    );
    full(calls);
    calls.arrive_at(LATER, &whole(7_000, ACK | FIN));
}

/// E12 and E13 on both sides, and expiries of a new timer and of one with a sample; each changes its own field alone.
fn other_calls(calls: &mut CallList) {
    extended(calls);
    for count in [u32::MAX, 8_192, 8_191] {
        calls.sent(count);
    }
    extended(calls);
    for window in [65_534, 65_535, 262_141, 262_140] {
        calls.window(window);
    }
    for start in [extended, sampled, outstanding_with_sack, behind] {
        start(calls);
        calls.add(&Call::Expire);
    }
    bare(calls);
    calls.sent(0);
    calls.window(65_535);
    extended(calls);
    calls.acknowledge_at(SET, 32);
    calls.sent(1);
    extended(calls);
    calls.sent(1);
}

/// Each call on one record: two samples, of which the second is left out, and an expiry between them.
fn every_call(calls: &mut CallList) {
    extended(calls);
    calls.arrive_at(
        LATER,
        &stamped(5_000, 1_001, 60, 100).flags(ACK | FIN).payload(500),
    );
    calls.sent(5);
    calls.window(65_535);
    calls.add(&Call::Expire);
    calls.acknowledge_at(LATER, 32);
    calls.arrive_at(
        160,
        &stamped(5_501, 1_003, 61, echo_of(160, MAX_SAMPLE + 1)),
    );
}
