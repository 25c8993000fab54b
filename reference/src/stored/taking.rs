//! What a taken segment changes: its part, the send side, TS.Recent, samples, the peer's SACK blocks.

use crate::builder::SegmentBuilder;
use crate::cases::{data, opening, stamped, syn, CLOCK, NEXT, RECENT, UNA};
use crate::connection::Opening;
use crate::ranges::Range;
use crate::script::Call;
use crate::segment::{ACK, FIN};
use crate::serial::{Seq, Stamp, HALF};

use super::calls::CallList;

pub fn add(calls: &mut CallList) {
    parts(calls);
    fins(calls);
    window_closes_and_opens(calls);
    ts_recent(calls);
    equal_timestamp(calls);
    window_updates(calls);
    wl2_2_31_away(calls);
    samples(calls);
    sample_of_a_wrapped_stamp(calls);
    peer_blocks(calls);
    peer_blocks_not_in_force(calls);
}

fn parts(calls: &mut CallList) {
    const WINDOW: u32 = 100;
    let edge = NEXT.plus(WINDOW);
    let segments = [
        (NEXT, 1),
        (NEXT, 100),
        (NEXT, 101),
        (NEXT.minus(5), 6),
        (NEXT.minus(5), 105),
        (NEXT.plus(1), 99),
        (NEXT.plus(1), 100),
        (edge.minus(1), 1),
        (edge.minus(1), 2),
        (edge.minus(1), 0),
        (NEXT.plus(1), 0),
    ];
    for (seq, length) in segments {
        calls.open_with_window(WINDOW);
        calls.arrive(&data(seq, length));
    }
}

fn fins(calls: &mut CallList) {
    let segments = [
        (NEXT, 0),
        (NEXT, 9),
        (NEXT, 10),
        (NEXT.plus(4), 0),
        (NEXT.plus(9), 0),
        (NEXT.plus(10), 0),
        (NEXT.plus(5), 4),
        (NEXT.plus(5), 5),
        (NEXT.minus(1), 0),
        (NEXT.minus(1), 1),
        (NEXT.minus(3), 12),
    ];
    for (seq, length) in segments {
        calls.open_with_window(10);
        calls.arrive(&data(seq, length).flags(ACK | FIN));
    }
}

fn window_closes_and_opens(calls: &mut CallList) {
    calls.open_with_window(10);
    calls.arrive(&data(NEXT, 10));
    calls.arrive(&data(NEXT.plus(10), 1));
    calls.acknowledge(20);
    calls.window(10);
    calls.arrive(&data(NEXT.plus(10), 11));
    calls.arrive(&data(NEXT.plus(20), 0));
}

/// SEQ at, one below and one above Last.ACK.sent, which an acknowledgment moves.
fn ts_recent(calls: &mut CallList) {
    calls.open_with_timestamps();
    let newer = |seq, more| data(seq, 1).timestamps(RECENT.plus(more), Stamp(0));
    calls.arrive_at(CLOCK + 1, &newer(NEXT.plus(1), 1));
    calls.arrive_at(CLOCK + 2, &newer(NEXT, 2));
    calls.arrive_at(CLOCK + 3, &newer(NEXT.plus(2), 3));
    calls.arrive_at(CLOCK + 4, &newer(NEXT.plus(3), 4));
    calls.acknowledge_at(CLOCK + 5, 32);
    calls.arrive_at(CLOCK + 6, &newer(NEXT.plus(5), 6));
    calls.arrive_at(CLOCK + 7, &newer(NEXT.plus(4), 7));
    // A part of it old, so it starts below Last.ACK.sent.
    calls.acknowledge_at(CLOCK + 7, 32);
    let overlapping = data(NEXT.plus(4), 3).timestamps(RECENT.plus(9), Stamp(0));
    calls.arrive_at(CLOCK + 8, &overlapping);
    // Not acceptable, so its timestamp is not recorded.
    calls.arrive_at(CLOCK + 9, &newer(NEXT, 11));
}

/// An equal TSval sets the clock anew, so that a clock below it is refused.
fn equal_timestamp(calls: &mut CallList) {
    calls.open_with_timestamps();
    calls.arrive_at(CLOCK + 50, &stamped(NEXT, 0));
    calls.arrive_at(CLOCK + 49, &stamped(NEXT, 0));
    calls.arrive_at(CLOCK + 50, &stamped(NEXT, 0));
}

fn window_updates(calls: &mut CallList) {
    calls.open_with_shift(3);
    calls.sent(100);
    let acking = |seq, ack, window| SegmentBuilder::data(seq, ack, 0).window(window);
    calls.arrive(&acking(NEXT, UNA.plus(10), 1));
    // The same SEQ: WL2 at ACK updates, WL2 past ACK does not.
    calls.arrive(&acking(NEXT, UNA.plus(10), 2));
    calls.arrive(&acking(NEXT, UNA.plus(9), 3));
    calls.arrive(&acking(NEXT, UNA.plus(20), 4));
    // A later SEQ, then an earlier one.
    calls.arrive(&acking(NEXT.plus(5), UNA.plus(20), 5));
    calls.arrive(&acking(NEXT.plus(4), UNA.plus(30), 6));
    calls.arrive(&acking(NEXT.plus(6), UNA.plus(19), 7));
    calls.arrive(&acking(NEXT.plus(6), UNA.plus(30), 0));
    calls.arrive(&acking(NEXT.plus(7), UNA.plus(30), 65_535));
    calls.arrive(&acking(NEXT.plus(8), UNA.plus(100), 8));
}

/// ACKs on an earlier SEQ move SND.UNA but not WL2, until ACK is 2^31 above WL2.
fn wl2_2_31_away(calls: &mut CallList) {
    const STEP: u32 = 65_535 << 14;
    let wl1 = NEXT.plus(5);
    let mut una = UNA;
    calls.open_with_shift(14);
    calls.arrive(&SegmentBuilder::data(wl1, una, 0).window(65_535));
    for step in [STEP, STEP] {
        calls.sent(step);
        una = una.plus(step);
        calls.arrive(&SegmentBuilder::data(NEXT, una, 0));
    }
    let last_before = UNA.plus(HALF - 1);
    calls.sent(una.offset_of(last_before) + 2);
    // SEQ = WL1 and ACK is new each time: ACK is 2^31 above WL2, then one more.
    calls.arrive(&SegmentBuilder::data(wl1, last_before.plus(1), 0).window(1));
    calls.arrive(&SegmentBuilder::data(wl1, last_before.plus(2), 0).window(2));
    wl2_just_within(calls, wl1, STEP);
}

/// The same way to 2^31 - 1, where WL2 is still before ACK.
fn wl2_just_within(calls: &mut CallList, wl1: Seq, step: u32) {
    calls.open_with_shift(14);
    calls.arrive(&SegmentBuilder::data(wl1, UNA, 0).window(65_535));
    calls.sent(step);
    calls.arrive(&SegmentBuilder::data(NEXT, UNA.plus(step), 0));
    calls.sent(step);
    calls.arrive(&SegmentBuilder::data(NEXT, UNA.plus(2 * step), 0));
    calls.sent(HALF - 1 - 2 * step);
    calls.arrive(&SegmentBuilder::data(wl1, UNA.plus(HALF - 1), 0).window(3));
}

fn acking_after(clock: u64, ack: Seq, round_trip: u32) -> SegmentBuilder {
    let echo = Stamp::of_clock(clock, 0).minus(round_trip);
    SegmentBuilder::data(NEXT, ack, 0).timestamps(RECENT, echo)
}

fn samples(calls: &mut CallList) {
    calls.open_with_timestamps();
    calls.sent(100);
    // An ACK that is not new gives no sample.
    calls.arrive(&acking_after(CLOCK, UNA, 10));
    calls.arrive(&acking_after(CLOCK, UNA.plus(1), 600_001));
    calls.arrive(&acking_after(CLOCK, UNA.plus(2), u32::MAX));
    calls.arrive(&acking_after(CLOCK, UNA.plus(3), 600_000));
    calls.arrive(&acking_after(CLOCK, UNA.plus(4), 0));
    calls.arrive(&acking_after(CLOCK, UNA.plus(4), 500));
    calls.arrive(&acking_after(CLOCK, UNA.plus(5), 1));
    calls.add(&Call::Expire);
    calls.arrive(&acking_after(CLOCK, UNA.plus(6), 600_001));
    calls.arrive(&acking_after(CLOCK, UNA.plus(7), 250));
    // Without timestamps a new ACK gives no sample.
    calls.open_plain();
    calls.sent(5);
    calls.arrive(&acking_after(CLOCK, UNA.plus(5), 10));
}

fn sample_of_a_wrapped_stamp(calls: &mut CallList) {
    let opening = Opening {
        timestamps: true,
        offset: 0u32.wrapping_sub(CLOCK as u32).wrapping_sub(5),
        ..opening()
    };
    calls.open(&opening, &syn().timestamps(RECENT, Stamp(0)));
    calls.sent(5);
    let acking = SegmentBuilder::data(NEXT, UNA.plus(5), 0);
    // Our timestamp was 2^32 - 5 at the opening and is 15 now.
    calls.arrive_at(CLOCK + 20, &acking.timestamps(RECENT, Stamp(u32::MAX - 4)));
}

fn block(left: u32, right: u32) -> Range {
    Range {
        left: UNA.plus(left),
        right: UNA.plus(right),
    }
}

fn peer_blocks(calls: &mut CallList) {
    let sent = 100;
    let before = u32::MAX;
    let lists = [
        [block(0, 10), block(1, 10), block(1, 1), block(10, 1)],
        [
            block(99, 100),
            block(99, 101),
            block(100, 100),
            block(100, 101),
        ],
        [
            block(before, 10),
            block(1, before),
            block(HALF, HALF + 1),
            block(2, 3),
        ],
    ];
    for blocks in lists {
        calls.open_with_sack();
        calls.sent(sent);
        calls.arrive(&data(NEXT, 0).sack(&blocks));
        // The values after the take count.
        calls.arrive(&SegmentBuilder::data(NEXT, UNA.plus(1), 0).sack(&blocks));
        calls.arrive(&SegmentBuilder::data(NEXT, UNA.plus(99), 0).sack(&blocks));
        // A segment that is not taken lists none.
        calls.arrive(&SegmentBuilder::data(NEXT.minus(1), UNA, 0).sack(&blocks));
    }
}

fn peer_blocks_not_in_force(calls: &mut CallList) {
    calls.open_plain();
    calls.sent(100);
    calls.arrive(&data(NEXT, 0).sack(&[block(1, 10)]));
}

#[cfg(test)]
mod tests {
    use super::*;
    use crate::play::play;

    /// SND.WND in each record line.
    fn send_windows(calls: CallList) -> Vec<u32> {
        let lines = play(&calls.into_script());
        let records = lines.lines().filter(|line| line.starts_with("record"));
        let field = |line: &str| line.split(' ').nth(8).and_then(|word| word.parse().ok());
        records.filter_map(field).collect()
    }

    #[test]
    fn wl2_2_31_away_does_not_update_the_window() {
        let mut calls = CallList::default();
        wl2_2_31_away(&mut calls);
        let largest = 65_535 << 14;
        let mut expected = vec![8_192];
        expected.extend([largest; 8]);
        expected.push(8_192);
        expected.extend([largest; 6]);
        expected.push(3 << 14);
        assert_eq!(send_windows(calls), expected);
    }
}
