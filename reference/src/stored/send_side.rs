//! The send side: which ACKs are new or unsent, window updates by WL1 and WL2, E12, the peer's SACK blocks.

use crate::builder::SegmentBuilder;
use crate::cases::opening;
use crate::connection::Opening;
use crate::segment::{ACK, SYN};
use crate::serial::{Seq, HALF};

use super::calls::CallList;
use super::records::ranges;

pub fn add(calls: &mut CallList) {
    openings(calls);
    unsent(calls);
    new_acks(calls);
    windows(calls);
    later_by_wl1(calls);
    later_by_wl2(calls);
    wrapping(calls);
    far_wl2(calls);
    sent(calls);
    blocks(calls);
}

/// A send side that calls lead to. WL2 is at or before SND.UNA.
#[derive(Clone, Copy)]
struct Side {
    una: u32,
    nxt: u32,
    shift: u8,
    wl1: u32,
    wl2: u32,
}

const SIDE: Side = Side {
    una: 100,
    nxt: 200,
    shift: 3,
    wl1: 50,
    wl2: 60,
};

const BEFORE_0: u32 = u32::MAX - 5;

/// From 2^32 - 6 up to 10.
const ACROSS_0: Side = Side {
    una: BEFORE_0,
    nxt: 10,
    wl2: BEFORE_0,
    ..SIDE
};

const NOTHING_SENT: Side = Side {
    una: 700,
    nxt: 700,
    ..SIDE
};

impl Side {
    /// Opens at WL2, sends up to SND.NXT, and moves SND.UNA by a segment before WL1; the window field is 1.
    fn reach(self, calls: &mut CallList) {
        let (wl1, wl2) = (Seq(self.wl1), Seq(self.wl2));
        let opening = Opening {
            iss: wl2.minus(1),
            shift: Some(self.shift),
            sack: true,
            ..opening()
        };
        let syn = SegmentBuilder::new(wl1.minus(2), wl2, SYN | ACK).window(65_535);
        calls.open(&opening, &syn.scale(self.shift).sack_permitted());
        calls.sent(wl2.offset_of(Seq(self.nxt)));
        calls.arrive(&SegmentBuilder::data(wl1, wl2, 0).window(1));
        if self.una != self.wl2 {
            calls.arrive(&SegmentBuilder::data(wl1.minus(1), Seq(self.una), 0));
        }
    }

    /// Segments without payload arrive, each at the side as it starts: SEQ, ACK, window field.
    fn arrive_each(self, calls: &mut CallList, segments: &[(u32, u32, u16)]) {
        for &(seq, ack, window) in segments {
            self.reach(calls);
            calls.arrive(&SegmentBuilder::data(Seq(seq), Seq(ack), 0).window(window));
        }
    }

    /// ACKs with a SEQ above WL1 arrive.
    fn arrive_acks(self, calls: &mut CallList, acks: &[u32]) {
        for &ack in acks {
            self.arrive_each(calls, &[(self.wl1 + 1, ack, 7)]);
        }
    }
}

/// With the ACK flag and without it, where the ACK field is not looked at; no window is scaled.
fn openings(calls: &mut CallList) {
    for (iss, shift, window) in [(1_000, 7, 800), (u32::MAX, 14, 65_535)] {
        let opening = Opening {
            iss: Seq(iss),
            shift: Some(shift),
            ..opening()
        };
        let first = opening.iss.plus(1);
        for (ack, flags) in [(first, SYN | ACK), (Seq(3_000), SYN)] {
            let syn = SegmentBuilder::new(Seq(5_000), ack, flags).window(window);
            calls.open(&opening, &syn.scale(shift));
        }
    }
}

/// 29 by serial distance, and not at 2^31 apart, where an ACK is too old.
fn unsent(calls: &mut CallList) {
    SIDE.arrive_acks(calls, &[200, 201, 150, 199 + HALF, 200 + HALF, 201 + HALF]);
    let before_0 = Side {
        nxt: u32::MAX,
        ..ACROSS_0
    };
    before_0.arrive_acks(calls, &[0]);
}

/// SND.UNA, one after it, SND.NXT, one after it, one before SND.UNA; across the number 0; nothing outstanding.
fn new_acks(calls: &mut CallList) {
    SIDE.arrive_acks(calls, &[100, 101, 200, 201, 99]);
    let una = ACROSS_0.una;
    ACROSS_0.arrive_acks(calls, &[una, una + 1, 0, 10, 11, una - 1]);
    NOTHING_SENT.arrive_acks(calls, &[700, 701, 699]);
}

/// Windows scaled by the peer's shift, a window of 0, an ACK as old as may be, and SND.UNA of before, old after a new ACK.
fn windows(calls: &mut CallList) {
    for (shift, window) in [(14, 65_534), (13, 65_535), (3, 7)] {
        Side { shift, ..SIDE }.arrive_each(calls, &[(51, 150, window)]);
    }
    Side { shift: 0, ..SIDE }.arrive_each(calls, &[(51, 200, 7)]);
    Side { una: 200, ..SIDE }.arrive_each(calls, &[(51, 200, 0)]);
    let oldest = Seq(100).minus(65_535).0;
    SIDE.arrive_each(
        calls,
        &[(51, 100, 7), (51, 99, 7), (51, 201, 7), (51, oldest, 7)],
    );
    SIDE.arrive_each(calls, &[(51, 150, 7)]);
    calls.arrive(&SegmentBuilder::data(Seq(52), Seq(100), 0).window(6));
}

/// SEQ before WL1: SND.UNA moves alone. WL1 before SEQ, also across the number 0.
fn later_by_wl1(calls: &mut CallList) {
    SIDE.arrive_each(calls, &[(49, 150, 7)]);
    Side {
        wl1: u32::MAX,
        ..SIDE
    }
    .arrive_each(calls, &[(0, 150, 7)]);
    Side { wl1: 0, ..SIDE }.arrive_each(calls, &[(u32::MAX, 150, 7)]);
}

/// SEQ equal to WL1: WL2 before ACK, and at ACK.
fn later_by_wl2(calls: &mut CallList) {
    SIDE.arrive_each(calls, &[(50, 150, 7)]);
    Side {
        una: 149,
        wl2: 149,
        ..SIDE
    }
    .arrive_each(calls, &[(50, 150, 7)]);
    Side { wl2: 100, ..SIDE }.arrive_each(calls, &[(50, 100, 7)]);
}

/// WL2 before ACK across the number 0.
fn wrapping(calls: &mut CallList) {
    let last = Side {
        una: u32::MAX,
        wl2: u32::MAX,
        ..ACROSS_0
    };
    last.arrive_each(calls, &[(50, 5, 7)]);
}

/// ACKs on a SEQ before WL1 move SND.UNA until it is far above WL2, which they leave.
fn reach_far_una(calls: &mut CallList, wl2: Seq, distance: u32) {
    const STEP: u32 = 65_535 << 14;
    let side = Side {
        una: wl2.0,
        nxt: wl2.0,
        shift: 14,
        wl1: 50,
        wl2: wl2.0,
    };
    side.reach(calls);
    calls.arrive(&SegmentBuilder::data(Seq(50), wl2, 0).window(65_535));
    let mut moved = 0;
    while moved < distance {
        let step = STEP.min(distance - moved);
        moved += step;
        calls.sent(step);
        calls.arrive(&SegmentBuilder::data(Seq(49), wl2.plus(moved), 0));
    }
    calls.sent(100);
}

/// WL2 2^31 - 1 before ACK, then 2^31 and more, where it is not before it; then a SEQ above WL1, for which WL2 does not count.
fn far_wl2(calls: &mut CallList) {
    let ack = Seq(150);
    for distance in [HALF - 1, HALF, HALF + 1] {
        reach_far_una(calls, ack.minus(distance), distance - 50);
        calls.arrive(&SegmentBuilder::data(Seq(50), ack, 0).window(7));
        // The same ACK again is equal to SND.UNA.
        calls.arrive(&SegmentBuilder::data(Seq(50), ack, 0).window(6));
        calls.arrive(&SegmentBuilder::data(Seq(51), ack, 0).window(5));
    }
    // From 0 to 2^31 and from 2^31 to 0.
    for wl2 in [Seq(0), Seq(HALF)] {
        reach_far_una(calls, wl2, HALF - 50);
        calls.arrive(&SegmentBuilder::data(Seq(50), wl2.plus(HALF), 0).window(7));
    }
}

/// Opens with a send window and sends up to SND.NXT.
fn reach_sent(calls: &mut CallList, una: u32, nxt: u32, window: u16) {
    let una = Seq(una);
    let opening = Opening {
        iss: una.minus(1),
        shift: Some(3),
        ..opening()
    };
    let syn = SegmentBuilder::new(Seq(50), una, SYN | ACK).window(window);
    calls.open(&opening, &syn.scale(3));
    calls.sent(una.offset_of(Seq(nxt)));
}

fn sent(calls: &mut CallList) {
    let limits = [
        (100, 200, 150, [51, 50]),
        (700, 700, 0, [1, 0]),
        // A full window, and sums that wrap.
        (100, 200, 100, [1, 0]),
        (100, 200, 150, [u32::MAX, 0]),
        (700, 701, 65_535, [u32::MAX, 0]),
        // SND.NXT wraps.
        (BEFORE_0, u32::MAX, 20, [16, 15]),
        (BEFORE_0, 10, 20, [5, 4]),
        (BEFORE_0, BEFORE_0, 20, [21, 16]),
    ];
    for (una, nxt, window, counts) in limits {
        reach_sent(calls, una, nxt, window);
        for count in counts {
            calls.sent(count);
        }
    }
    // A window that the peer makes smaller than what is outstanding, by one.
    Side {
        wl2: 100,
        shift: 0,
        ..SIDE
    }
    .reach(calls);
    for window in [99, 100] {
        calls.arrive(&SegmentBuilder::data(Seq(51), Seq(100), 0).window(window));
        calls.sent(0);
    }
}

/// Blocks arrive four at a time, with an ACK before SND.UNA, which leaves the send side.
fn arrive_blocks(calls: &mut CallList, side: Side, blocks: &[(u32, u32)]) {
    side.reach(calls);
    for four in ranges(blocks).chunks(4) {
        let ack = Seq(side.una).minus(1);
        calls.arrive(&SegmentBuilder::data(Seq(side.wl1), ack, 0).sack(four));
    }
}

fn blocks(calls: &mut CallList) {
    let edges = [
        // The left edge before SND.UNA, at it, after it.
        (99, 150),
        (100, 150),
        (101, 150),
        // The right edge after the left, at it, before it, at SND.UNA, before SND.UNA.
        (120, 121),
        (120, 120),
        (120, 119),
        (120, 100),
        (120, 99),
        // The right edge at SND.NXT, and after it.
        (150, 200),
        (150, 201),
        (101, 200),
    ];
    arrive_blocks(calls, SIDE, &edges);
    arrive_blocks(calls, NOTHING_SENT, &[(701, 702)]);
    let edges = [
        (BEFORE_0, 5),
        (BEFORE_0 + 1, 10),
        (u32::MAX, 0),
        (0, 11),
        (5, u32::MAX),
    ];
    arrive_blocks(calls, ACROSS_0, &edges);
}

#[cfg(test)]
mod tests {
    use super::*;

    #[test]
    fn a_side_is_reached() {
        let mut calls = CallList::default();
        SIDE.reach(&mut calls);
        let record = calls.connection();
        assert_eq!((record.snd_una, record.snd_nxt), (Seq(100), Seq(200)));
        assert_eq!((record.snd_wl1, record.snd_wl2), (Seq(50), Seq(60)));
        assert_eq!(record.snd_wnd, 8);
    }

    #[test]
    fn wl2_is_left_far_behind() {
        let mut calls = CallList::default();
        reach_far_una(&mut calls, Seq(HALF + 150), HALF - 50);
        let record = calls.connection();
        assert_eq!((record.snd_una, record.snd_nxt), (Seq(100), Seq(200)));
        assert_eq!((record.snd_wl1, record.snd_wl2), (Seq(50), Seq(HALF + 150)));
    }
}
