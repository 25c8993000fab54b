//! How many unknown options were skipped: with what is read or opened, with every verdict, and with no refusal.

use crate::builder::{SegmentBuilder, MAX_OPTIONS};
use crate::cases::{data, opening, syn, NEXT};
use crate::connection::Opening;
use crate::segment::{ACK, FIN, RST, SYN};
use crate::serial::{Seq, Stamp};

use super::calls::CallList;
use super::reading::filled_option;
use super::records::{
    bare_syn, extended, full, full_syn, outstanding_with_sack, own, ranges, segment, stamped, SET,
};

/// The shortest unknown option.
pub const UNKNOWN: [u8; 2] = [254, 2];

pub fn add(calls: &mut CallList) {
    calls.open_plain();
    for count in 0..=MAX_OPTIONS / UNKNOWN.len() {
        add_options(calls, |segment| with_unknown(segment, count));
    }
    for options in mixed() {
        add_options(calls, options);
    }
    opened(calls);
    taken(calls);
    not_taken(calls);
    refused(calls);
}

/// Adds options to a segment.
type Adding = fn(SegmentBuilder) -> SegmentBuilder;

/// By read, by an arrival that is taken, and by an opening.
fn add_options(calls: &mut CallList, options: impl Fn(SegmentBuilder) -> SegmentBuilder) {
    let segment = options(data(NEXT, 0));
    calls.read(&segment.build());
    calls.arrive(&segment);
    calls.open(&opening(), &options(syn()));
}

/// An unknown kind so many times.
fn with_unknown(segment: SegmentBuilder, count: usize) -> SegmentBuilder {
    segment.options(&UNKNOWN.repeat(count))
}

fn mixed() -> [Adding; 7] {
    [
        // One that takes all the room.
        |segment| segment.options(&filled_option(254, MAX_OPTIONS)),
        // NOPs are not counted.
        |segment| segment.options(&[1, 254, 2, 1, 1, 253, 3, 0, 1]),
        // What looks like options in a body is not counted.
        |segment| segment.options(&[254, 6, 253, 2, 252, 2, 9, 2]),
        // Nothing behind kind 0 is counted.
        |segment| segment.options(&[254, 2, 0, 253, 2, 252, 2, 0]),
        |segment| segment.options(&[0, 254, 2, 0]),
        // Known kinds are not counted.
        |segment| every_known_kind(segment, &[]),
        |segment| every_known_kind(segment, &UNKNOWN),
    ]
}

/// Every known kind once, with the same octets before each.
fn every_known_kind(segment: SegmentBuilder, before: &[u8]) -> SegmentBuilder {
    segment
        .options(before)
        .mss(1_460)
        .options(before)
        .scale(7)
        .options(before)
        .sack_permitted()
        .options(before)
        .timestamps(Stamp(3), Stamp(4))
        .options(before)
        .sack(&ranges(&[(1, 2)]))
}

/// With everything in force.
fn opened(calls: &mut CallList) {
    calls.open(&own(), &with_unknown(full_syn(4_999), 3));
    calls.open(&own(), &full_syn(4_999).options(&filled_option(254, 20)));
}

/// Behind payload, FIN and a listed block.
fn taken(calls: &mut CallList) {
    outstanding_with_sack(calls);
    let segment =
        with_unknown(segment(5_000, 1_001, ACK | FIN), 2).sack(&ranges(&[(2_000, 3_000)]));
    calls.arrive_at(SET, &with_unknown(segment, 3).payload(9));
}

/// 21 to 29, 31 and 30 in their order, each with a count of its own; there is room for 20 at most, and for 14 beside timestamps.
fn not_taken(calls: &mut CallList) {
    let too_old = Seq(1_000).minus(8_193).0;
    let segments = [
        (20, segment(5_000, 1_001, ACK)),
        (14, stamped(5_000, 1_001, 49, 0)),
        (3, segment(4_999, 1_001, RST)),
        (4, stamped(4_999, 1_001, 50, 0)),
        (5, segment(5_000, 1_001, RST)),
        (6, segment(5_001, 1_001, RST)),
        (7, stamped(5_000, 1_001, 50, 0).flags(SYN)),
        (8, stamped(5_000, 1_001, 50, 0).flags(0)),
        (9, stamped(5_000, 1_002, 50, 0)),
        (11, stamped(5_000, too_old, 50, 0)),
    ];
    extended(calls);
    for (count, segment) in segments {
        calls.arrive_at(SET, &with_unknown(segment, count));
    }
    full(calls);
    let ninth = stamped(6_800, 1_001, 50, 0).payload(10);
    calls.arrive_at(SET, &with_unknown(ninth, 10));
}

/// E8 to E11 say nothing of the options that were read.
fn refused(calls: &mut CallList) {
    extended(calls);
    calls.arrive_at(SET - 1, &with_unknown(stamped(5_000, 1_001, 50, 0), 2));
    let too_wide = Opening {
        window: 65_536,
        ..own()
    };
    calls.open(&too_wide, &with_unknown(bare_syn(4_999), 2));
    for (ack, flags) in [(0, ACK), (0, SYN | RST), (1_000, SYN | ACK)] {
        let syn = SegmentBuilder::new(Seq(4_999), Seq(ack), flags);
        calls.open(&own(), &with_unknown(syn, 2));
    }
}
