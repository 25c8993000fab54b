//! Acknowledgments: E8, E7 at every length, and the window field.

use crate::builder::SegmentBuilder;
use crate::cases::{data, opening, stamped, syn, CLOCK, NEXT, RECENT};
use crate::connection::Opening;
use crate::serial::{Seq, Stamp};

use super::calls::CallList;

pub fn add(calls: &mut CallList) {
    clock_went_back(calls);
    calls.open_plain();
    both_sides(calls, 20);
    lengths_with_sack(calls);
    lengths_with_timestamps(calls);
    ranges_without_sack(calls);
    window_fields(calls);
    stamps_written(calls);
}

fn clock_went_back(calls: &mut CallList) {
    calls.open_with_timestamps();
    // E8 comes before E7.
    calls.acknowledge_at(CLOCK - 1, 32);
    calls.acknowledge_at(CLOCK - 1, 31);
    calls.acknowledge_at(CLOCK, 31);
    calls.acknowledge_at(CLOCK, 32);
    calls.open_plain();
    calls.acknowledge_at(CLOCK - 1, 20);
    calls.acknowledge_at(CLOCK, 20);
}

/// One octet short, the exact length, and longer.
fn both_sides(calls: &mut CallList, exact: usize) {
    calls.acknowledge(0);
    calls.acknowledge(exact - 1);
    calls.acknowledge(exact);
    calls.acknowledge(exact + 5);
}

fn lengths_with_sack(calls: &mut CallList) {
    calls.open_with_sack();
    both_sides(calls, 20);
    for (index, exact) in [32, 40, 48, 56, 56].into_iter().enumerate() {
        calls.arrive(&data(NEXT.plus(10 + 10 * index as u32), 5));
        both_sides(calls, exact);
    }
}

fn lengths_with_timestamps(calls: &mut CallList) {
    calls.open_with_timestamps();
    both_sides(calls, 32);
    for (index, exact) in [44, 52, 60, 60].into_iter().enumerate() {
        calls.arrive(&stamped(NEXT.plus(10 + 10 * index as u32), 5));
        both_sides(calls, exact);
    }
}

fn ranges_without_sack(calls: &mut CallList) {
    calls.open_plain();
    calls.arrive(&data(NEXT.plus(10), 5));
    both_sides(calls, 20);
}

/// The window is scaled down and cut off.
fn window_fields(calls: &mut CallList) {
    for window in [0, 7, 8, 15, 65_535] {
        let opening = Opening {
            shift: Some(3),
            window,
            ..opening()
        };
        calls.open(&opening, &syn().scale(0));
        calls.acknowledge(20);
        calls.window(window + 9);
        calls.acknowledge(20);
    }
    calls.window(65_535 << 3);
    calls.acknowledge(20);
    calls.arrive(&data(NEXT, 1));
    calls.acknowledge(20);
}

fn stamps_written(calls: &mut CallList) {
    for (clock, offset) in [(u64::MAX, 2), (1 << 32, u32::MAX), (5, u32::MAX - 4)] {
        let opening = Opening {
            iss: Seq(u32::MAX),
            timestamps: true,
            offset,
            clock,
            ..opening()
        };
        let syn = SegmentBuilder::syn(NEXT).timestamps(RECENT, Stamp(9));
        calls.open(&opening, &syn);
        calls.acknowledge_at(clock, 32);
        calls.acknowledge_at(clock.saturating_add(1), 32);
    }
}
