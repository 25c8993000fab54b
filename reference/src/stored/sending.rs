//! Noting sent octets and opening the receive window: E12 and E13.

use crate::builder::SegmentBuilder;
use crate::cases::{data, opening, syn, NEXT, UNA};
use crate::connection::Opening;
use crate::script::Call;
use crate::serial::Seq;

use super::calls::CallList;

pub fn add(calls: &mut CallList) {
    sent(calls);
    sent_before_the_ack_of_our_syn(calls);
    sent_past_a_shrunk_window(calls);
    window(calls);
    window_after_an_advance(calls);
    largest_windows(calls);
    calls.add(&Call::Expire);
}

fn sent(calls: &mut CallList) {
    calls.open_plain();
    for count in [8_193, u32::MAX, 0, 8_000, 193, 192, 0, 1, u32::MAX] {
        calls.sent(count);
    }
    calls.arrive(&SegmentBuilder::data(NEXT, UNA.plus(8_000), 0).window(192));
    calls.sent(1);
    calls.sent(0);
    // SND.NXT wraps.
    let opening = Opening {
        iss: Seq(u32::MAX - 5),
        ..opening()
    };
    calls.open(&opening, &SegmentBuilder::syn(NEXT));
    calls.sent(8_191);
    calls.sent(1);
}

/// Our SYN counts as outstanding until it is acknowledged, so with window 0 not even 0 octets fit.
fn sent_before_the_ack_of_our_syn(calls: &mut CallList) {
    for window in [0, 1, 2] {
        calls.open(&opening(), &SegmentBuilder::syn(NEXT).window(window));
        calls.sent(0);
        calls.sent(1);
    }
}

fn sent_past_a_shrunk_window(calls: &mut CallList) {
    calls.open_plain();
    calls.sent(1_000);
    calls.arrive(&data(NEXT, 0).window(999));
    calls.sent(0);
    calls.arrive(&data(NEXT, 0).window(1_000));
    calls.sent(0);
    calls.sent(1);
}

fn window(calls: &mut CallList) {
    calls.open_with_window(1_000);
    for window in [
        0,
        999,
        1_000,
        1_001,
        1_000,
        65_536,
        u32::MAX,
        65_535,
        65_534,
    ] {
        calls.window(window);
    }
}

/// The present window is the one that is left after an advance.
fn window_after_an_advance(calls: &mut CallList) {
    calls.open_with_window(1_000);
    calls.arrive(&data(NEXT, 100));
    calls.window(899);
    calls.window(900);
    calls.window(950);
}

fn largest_windows(calls: &mut CallList) {
    for shift in [0, 1, 14] {
        calls.open_with_shift(shift);
        let largest = 65_535u32 << shift;
        calls.window(largest + 1);
        calls.window(largest);
        calls.arrive(&data(NEXT.plus(largest), 0));
        calls.arrive(&data(NEXT.plus(largest - 1), 1));
        calls.arrive(&data(NEXT.plus(largest - 2), 5));
    }
    // Scaling that only one side offers leaves the shift at 0.
    let opening = Opening {
        shift: Some(14),
        ..opening()
    };
    calls.open(&opening, &syn());
    calls.window(65_536);
}
