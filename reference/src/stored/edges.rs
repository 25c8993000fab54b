//! Segments at the edges of the receive window, with Last.ACK.sent behind RCV.NXT: the window test, new parts, FIN.

use crate::builder::SegmentBuilder;
use crate::cases::{data, opening, UNA};
use crate::connection::Opening;
use crate::segment::{ACK, FIN, SYN};
use crate::serial::Seq;

use super::calls::CallList;

pub fn add(calls: &mut CallList) {
    openings(calls);
    ordinary(calls);
    window_0(calls);
    across_0(calls);
    held_across_0(calls);
    fins(calls);
    windows(calls);
}

/// Opens at RCV.NXT with a window, both shifts the same.
pub fn open_at(calls: &mut CallList, next: Seq, window: u32, shift: u8) {
    let opening = Opening {
        shift: Some(shift),
        window,
        ..opening()
    };
    let syn = SegmentBuilder::new(next.minus(1), UNA, SYN | ACK).scale(shift);
    calls.open(&opening, &syn);
}

/// RCV.NXT 1,000 with Last.ACK.sent 980, shift 3.
pub fn at_1000(calls: &mut CallList, window: u32) {
    at_1000_with_shift(calls, window, 3);
}

fn at_1000_with_shift(calls: &mut CallList, window: u32, shift: u8) {
    open_at(calls, Seq(980), window + 20, shift);
    calls.arrive(&data(Seq(980), 20));
}

/// A window of 20 from RCV.NXT 2^32 - 6 on, so that its right edge is 14.
fn across(calls: &mut CallList) {
    let next = Seq(0).minus(6);
    open_at(calls, next.minus(10), 30, 3);
    calls.arrive(&data(next.minus(10), 10));
}

fn openings(calls: &mut CallList) {
    open_at(calls, Seq(5_000), 400, 3);
    open_at(calls, Seq(u32::MAX), 65_535, 14);
}

fn ordinary(calls: &mut CallList) {
    let segments = [
        // LEN 0 on both sides of either edge.
        (999, 0),
        (1_000, 0),
        (1_299, 0),
        (1_300, 0),
        // Acceptable by the first number or not, then by the last.
        (1_299, 50),
        (1_300, 50),
        (900, 100),
        (900, 101),
        (900, 400),
        // Both ends outside, across the whole window.
        (900, 401),
        (999, 302),
        // Parts: inside, from before RCV.NXT, up to the right edge and cut there.
        (1_100, 50),
        (900, 150),
        (999, 2),
        (1_200, 99),
        (1_200, 100),
        (1_200, 150),
        (1_299, 2),
        (1_100, 0),
        (1_001, 5),
        (1_250, 70),
        (1_000, 400),
    ];
    for (seq, length) in segments {
        at_1000(calls, 300);
        calls.arrive(&data(Seq(seq), length));
    }
}

fn window_0(calls: &mut CallList) {
    at_1000(calls, 0);
    for (seq, length) in [(1_001, 0), (999, 0), (1_000, 1), (990, 11), (1_000, 0)] {
        calls.arrive(&data(Seq(seq), length));
    }
}

fn across_0(calls: &mut CallList) {
    let next = Seq(0).minus(6);
    let segments = [
        (next.minus(1), 0),
        (next, 0),
        (Seq(13), 0),
        (Seq(14), 0),
        (next.minus(5), 5),
        (next.minus(5), 6),
        (next.minus(10), 30),
        (next.minus(10), 31),
        (next.plus(5), 4),
        (next.minus(5), 10),
        (Seq(2), 100),
        // The number 10 is 16 numbers above.
        (Seq(10), 1),
    ];
    for (seq, length) in segments {
        across(calls);
        calls.arrive(&data(seq, length));
    }
}

/// A range above 0, then one that joins it from below 0, or an advance through it.
fn held_across_0(calls: &mut CallList) {
    let next = Seq(0).minus(6);
    for (seq, length) in [(next.plus(5), 3), (next, 8)] {
        across(calls);
        calls.arrive(&data(Seq(2), 5));
        calls.arrive(&data(seq, length));
    }
}

/// FIN as the last number: in the window, cut off by it, in order, bare, outside, bare out of order; and across 0.
fn fins(calls: &mut CallList) {
    let segments = [
        (1_200, 99),
        (1_200, 100),
        (900, 100),
        (1_299, 0),
        (1_300, 0),
        (1_100, 0),
    ];
    for (seq, length) in segments {
        at_1000(calls, 300);
        calls.arrive(&data(Seq(seq), length).flags(ACK | FIN));
    }
    across(calls);
    calls.arrive(&data(Seq(u32::MAX), 3).flags(ACK | FIN));
}

/// E13 on both sides of the present window and of the largest, with a range held.
fn windows(calls: &mut CallList) {
    let limits = [
        (3, [39, 40]),
        (0, [65_536, 65_535]),
        (14, [1_073_725_441, 1_073_725_440]),
    ];
    for (shift, windows) in limits {
        at_1000_with_shift(calls, 40, shift);
        calls.arrive(&data(Seq(1_010), 10));
        for window in windows {
            calls.window(window);
        }
    }
}
