//! Held ranges: joined, brought first, full, advanced through, and wrapped.

use crate::builder::SegmentBuilder;
use crate::cases::{data, opening, stamped, NEXT, UNA};
use crate::connection::Opening;
use crate::segment::{ACK, FIN, SYN};
use crate::serial::Seq;

use super::calls::CallList;

const BUFFER: usize = 60;

pub fn add(calls: &mut CallList) {
    joining(calls);
    advancing(calls);
    full(calls);
    full_with_timestamps(calls);
    wrapping(calls);
}

fn arrive_at_offsets(calls: &mut CallList, parts: &[(u32, usize)]) {
    for &(offset, length) in parts {
        calls.arrive(&data(NEXT.plus(offset), length));
    }
}

fn joining(calls: &mut CallList) {
    calls.open_with_sack();
    arrive_at_offsets(calls, &[(10, 2), (20, 2), (30, 2), (40, 2)]);
    // Touching on the left, on the right, overlapping, inside, around.
    arrive_at_offsets(
        calls,
        &[(8, 2), (12, 1), (21, 4), (31, 1), (39, 9), (13, 0)],
    );
    // One short of touching, then three joined into one.
    arrive_at_offsets(calls, &[(6, 1), (7, 1), (13, 18)]);
    calls.acknowledge(BUFFER);
}

fn advancing(calls: &mut CallList) {
    calls.open_with_sack();
    arrive_at_offsets(calls, &[(10, 2), (20, 2), (12, 1), (30, 1)]);
    calls.arrive(&data(NEXT.plus(40), 0).flags(ACK | FIN));
    arrive_at_offsets(calls, &[(0, 9), (9, 1), (13, 8), (22, 7), (29, 11)]);
    calls.acknowledge(BUFFER);
    // One part over several ranges at once.
    calls.open_with_sack();
    arrive_at_offsets(calls, &[(10, 2), (20, 2), (30, 2), (50, 2), (0, 31)]);
    calls.acknowledge(BUFFER);
}

fn fill(calls: &mut CallList) {
    for index in 1..=8 {
        calls.arrive(&data(NEXT.plus(10 * index), 2));
    }
}

fn full(calls: &mut CallList) {
    calls.open_with_sack();
    fill(calls);
    calls.acknowledge(BUFFER);
    // Apart from all: no room. Touching, overlapping, joining two: room.
    arrive_at_offsets(
        calls,
        &[(90, 2), (1, 1), (13, 6), (12, 1), (81, 3), (23, 7)],
    );
    // Room freed by a join and by an advance is used again.
    arrive_at_offsets(calls, &[(90, 2), (100, 2), (0, 10), (100, 2), (110, 1)]);
    // At 0 there is room always; an empty segment needs none.
    arrive_at_offsets(calls, &[(120, 0), (13, 1)]);
    calls.acknowledge(BUFFER);
}

fn full_with_timestamps(calls: &mut CallList) {
    calls.open_with_timestamps();
    for index in 1..=8 {
        calls.arrive(&stamped(NEXT.plus(10 * index), 2));
        calls.acknowledge(BUFFER);
    }
    calls.arrive(&stamped(NEXT.plus(90), 2));
    calls.arrive(&stamped(NEXT.plus(82), 8));
    calls.acknowledge(BUFFER);
}

/// RCV.NXT, the window and the ranges wrap past 2^32.
fn wrapping(calls: &mut CallList) {
    let next = Seq(0).minus(10);
    let opening = Opening {
        sack: true,
        window: 40,
        ..opening()
    };
    let syn = SegmentBuilder::new(next.minus(1), UNA, SYN | ACK).sack_permitted();
    calls.open(&opening, &syn);
    let parts = [
        (5, 3),
        (12, 3),
        (8, 4),
        (20, 25),
        (40, 1),
        (0, 5),
        (15, 5),
        (39, 1),
    ];
    for (offset, length) in parts {
        calls.arrive(&data(next.plus(offset), length));
        calls.acknowledge(BUFFER);
    }
    calls.arrive(&data(next, 5));
}
