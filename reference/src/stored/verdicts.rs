//! The verdicts 21 to 30 and E8, both sides of each and in their order.

use crate::builder::SegmentBuilder;
use crate::cases::{data, opening, stamped, syn, CLOCK, NEXT, RECENT, UNA};
use crate::connection::{Opening, OUTDATED_AFTER};
use crate::segment::{ACK, FIN, RST, SYN};
use crate::serial::{Seq, Stamp, HALF};

use super::calls::CallList;

pub fn add(calls: &mut CallList) {
    clock_went_back(calls);
    timestamp_missing(calls);
    timestamp_old(calls);
    outdated(calls);
    outdated_at_the_end_of_time(calls);
    unacceptable(calls);
    spanning(calls);
    window_of_zero(calls);
    resets(calls);
    acks(calls);
    order(calls);
    every_flag(calls);
}

fn clock_went_back(calls: &mut CallList) {
    calls.open_with_timestamps();
    calls.arrive_at(CLOCK - 1, &stamped(NEXT, 1));
    calls.arrive_at(CLOCK - 1, &data(NEXT, 0).flags(RST));
    // Reading comes before E8.
    calls.arrive_at(CLOCK - 1, &data(NEXT, 0).options(&[254]));
    calls.arrive_at(0, &stamped(NEXT, 1));
    calls.arrive_at(CLOCK, &stamped(NEXT, 1));
    calls.open_plain();
    calls.arrive_at(CLOCK - 1, &data(NEXT, 1));
    calls.arrive_at(CLOCK, &data(NEXT, 1));
}

fn timestamp_missing(calls: &mut CallList) {
    calls.open_with_timestamps();
    calls.arrive(&data(NEXT, 1));
    calls.arrive(&data(NEXT, 1).flags(RST));
    calls.arrive(&data(NEXT.plus(1), 1).flags(RST));
    // Where timestamps are not in force, one is ignored.
    calls.open_plain();
    calls.arrive(&data(NEXT, 1));
    calls.arrive(&data(NEXT.plus(1), 1).timestamps(Stamp(0), Stamp(0)));
}

fn timestamp_old(calls: &mut CallList) {
    let values = [
        RECENT,
        RECENT.minus(1),
        RECENT.plus(1),
        RECENT.minus(HALF - 1),
        RECENT.minus(HALF),
        RECENT.plus(HALF - 1),
        Stamp(0),
    ];
    for value in values {
        calls.open_with_timestamps();
        calls.arrive(&data(NEXT, 1).timestamps(value, Stamp(0)));
    }
    calls.open_with_timestamps();
    let old = data(NEXT, 0).timestamps(RECENT.minus(1), Stamp(0));
    calls.arrive(&old.flags(RST));
    stamps_wrap(calls);
}

fn stamps_wrap(calls: &mut CallList) {
    let opening = Opening {
        timestamps: true,
        ..opening()
    };
    calls.open(&opening, &syn().timestamps(Stamp(u32::MAX), Stamp(0)));
    calls.arrive(&data(NEXT, 1).timestamps(Stamp(0), Stamp(0)));
    calls.arrive(&data(NEXT.plus(1), 1).timestamps(Stamp(u32::MAX), Stamp(0)));
}

fn outdated(calls: &mut CallList) {
    let old = data(NEXT, 1).timestamps(RECENT.minus(1), Stamp(0));
    let later = [
        OUTDATED_AFTER - 1,
        OUTDATED_AFTER,
        OUTDATED_AFTER + 1,
        // The low 32 bits of the clock say that no time has gone by.
        1 << 32,
    ];
    for idle in later {
        calls.open_with_timestamps();
        calls.arrive_at(CLOCK + idle, &old);
    }
    // Outdated, but above Last.ACK.sent: taken, and TS.Recent stays.
    calls.open_with_timestamps();
    let above = data(NEXT.plus(1), 1).timestamps(RECENT.minus(1), Stamp(0));
    calls.arrive_at(CLOCK + OUTDATED_AFTER + 1, &above);
}

fn outdated_at_the_end_of_time(calls: &mut CallList) {
    for clock in [
        u64::MAX - OUTDATED_AFTER,
        u64::MAX - OUTDATED_AFTER - 1,
        u64::MAX,
    ] {
        let opening = Opening {
            timestamps: true,
            clock,
            ..opening()
        };
        calls.open(&opening, &syn().timestamps(RECENT, Stamp(0)));
        calls.arrive_at(
            u64::MAX,
            &data(NEXT, 1).timestamps(RECENT.minus(1), Stamp(0)),
        );
        calls.arrive_at(u64::MAX - 1, &stamped(NEXT, 1));
    }
}

fn unacceptable(calls: &mut CallList) {
    const WINDOW: u32 = 100;
    calls.open_with_window(WINDOW);
    let edge = NEXT.plus(WINDOW);
    let outside = [
        (NEXT.minus(1), 0),
        (NEXT.minus(1), 1),
        (NEXT.minus(10), 10),
        (edge, 0),
        (edge, 1),
        (NEXT.plus(HALF - 1), 0),
        (NEXT.plus(HALF), 1),
        (NEXT.plus(HALF + 1), 1),
    ];
    for (seq, length) in outside {
        calls.arrive(&data(seq, length));
        calls.arrive(&data(seq, length).flags(RST | ACK));
    }
    calls.arrive(&data(edge.minus(1), 0));
    calls.arrive(&data(NEXT, 0));
    // SYN and FIN count in LEN.
    calls.arrive(&data(NEXT.minus(1), 0).flags(ACK | FIN));
    calls.arrive(&data(NEXT.minus(1), 1).flags(ACK | FIN));
    calls.arrive(&data(NEXT.minus(1), 0).flags(SYN | ACK | FIN));
}

/// Both ends outside, the window between them.
fn spanning(calls: &mut CallList) {
    calls.open_with_window(10);
    calls.arrive(&data(NEXT.minus(1), 12));
    calls.arrive(&data(NEXT, 11));
    calls.open_with_window(10);
    calls.arrive(&data(NEXT.minus(1), 11));
}

fn window_of_zero(calls: &mut CallList) {
    calls.open_with_window(0);
    for seq in [NEXT.minus(1), NEXT, NEXT.plus(1)] {
        for flags in [ACK, ACK | FIN, RST] {
            calls.arrive(&data(seq, 0).flags(flags));
        }
    }
    calls.arrive(&data(NEXT, 1));
    calls.arrive(&data(NEXT, 1).flags(RST));
}

fn resets(calls: &mut CallList) {
    calls.open_plain();
    for seq in [NEXT, NEXT.plus(1), NEXT.plus(65_534)] {
        for flags in [RST, RST | ACK, RST | SYN | FIN] {
            calls.arrive(&data(seq, 0).flags(flags));
            calls.arrive(&data(seq, 5).flags(flags));
        }
    }
}

/// 29 up to 2^31 - 1 above SND.NXT; from there on an ACK is too old, up to the largest window before SND.UNA.
fn acks(calls: &mut CallList) {
    calls.open_plain();
    calls.sent(100);
    let nxt = UNA.plus(100);
    let acks = [
        nxt.plus(1),
        nxt.plus(HALF - 1),
        nxt.plus(HALF),
        nxt.plus(HALF + 1),
        UNA.minus(1),
        UNA,
        UNA.plus(1),
        nxt,
    ];
    for ack in acks {
        calls.arrive(&SegmentBuilder::data(NEXT, ack, 0));
    }
    // Without the flag the ACK field is not looked at.
    calls.arrive(&SegmentBuilder::new(NEXT, nxt.plus(1), 0));
}

/// Segments that two verdicts fit: the first in order is given.
fn order(calls: &mut CallList) {
    calls.open_with_timestamps();
    let old = |segment: SegmentBuilder| segment.timestamps(RECENT.minus(1), Stamp(0));
    calls.arrive(&data(NEXT.minus(9), 1));
    calls.arrive(&old(data(NEXT.minus(9), 1)));
    calls.arrive(&stamped(NEXT.minus(9), 1).flags(SYN));
    calls.arrive(&stamped(NEXT, 1).flags(SYN));
    calls.arrive(&stamped(NEXT, 1).flags(SYN | ACK));
    calls.arrive(&stamped(NEXT, 1).flags(SYN | RST));
    let unsent = |flags| {
        SegmentBuilder::new(NEXT.plus(90), UNA.plus(1), flags)
            .timestamps(RECENT, Stamp(0))
            .payload(1)
    };
    calls.arrive(&unsent(0));
    calls.arrive(&unsent(ACK));
    for index in 1..=8 {
        calls.arrive(&stamped(NEXT.plus(10 * index), 1));
    }
    calls.arrive(&unsent(0));
    calls.arrive(&unsent(ACK));
    calls.arrive(&stamped(NEXT.plus(90), 1));
    calls.arrive(&stamped(NEXT.plus(90), 0));
    calls.arrive(&old(data(Seq(0), 0)).flags(RST));
}

fn every_flag(calls: &mut CallList) {
    for flags in 0..=255 {
        calls.arrive(&stamped(NEXT, 0).flags(flags));
    }
}
