//! Verdict 31: ACKs on both sides of the largest send window before SND.UNA, what that window is, and what comes first.

use crate::builder::SegmentBuilder;
use crate::cases::{self, opening, stamped, CLOCK, NEXT, RECENT};
use crate::connection::Opening;
use crate::ranges::Range;
use crate::segment::{ACK, FIN, RST, SYN};
use crate::serial::{Seq, Stamp, HALF};

use super::calls::CallList;

/// SND.UNA and SND.NXT after most openings here.
const UNA: Seq = Seq(101);
/// The window of most openings here, so the largest at first.
const WINDOW: u16 = 50;
/// A window field that must not count where it stands.
const LARGER: u16 = 60;

pub fn add(calls: &mut CallList) {
    edges(calls);
    outstanding(calls);
    our_syn_outstanding(calls);
    across_0(calls);
    window_of_0(calls);
    opening_value(calls);
    rising_and_falling(calls);
    judged_by_the_one_before(calls);
    una_moves(calls);
    not_taken_over(calls);
    scaled(calls);
    before_no_room(calls);
    after_the_others(calls);
    dropped_and_taken(calls);
    refused_opening(calls);
}

/// Opens with SND.UNA = SND.NXT and a send window.
fn open_at(calls: &mut CallList, una: Seq, window: u16) {
    let opening = Opening {
        iss: una.minus(1),
        ..opening()
    };
    calls.open(&opening, &syn_of(una, window));
}

/// Opens with SND.UNA = SND.NXT = 101 and window 50.
fn open(calls: &mut CallList) {
    open_at(calls, UNA, WINDOW);
}

fn syn_of(una: Seq, window: u16) -> SegmentBuilder {
    SegmentBuilder::new(NEXT.minus(1), una, SYN | ACK).window(window)
}

/// A segment at RCV.NXT without payload.
fn acking(ack: Seq, window: u16) -> SegmentBuilder {
    SegmentBuilder::data(NEXT, ack, 0).window(window)
}

/// The oldest ACK that a largest window above 0 lets in, and the one before it; neither changes the record.
fn both_sides(calls: &mut CallList, una: Seq, largest: u32) {
    for octets in [largest, largest + 1] {
        calls.arrive(&acking(una.minus(octets), LARGER));
    }
}

/// Both sides of SND.NXT, of SND.UNA, of the window before it, and of 2^31.
fn edges(calls: &mut CallList) {
    let acks = [
        UNA.plus(1),
        UNA,
        UNA.minus(1),
        Seq(51),
        Seq(50),
        UNA.minus(HALF - 1),
        UNA.minus(HALF),
        UNA.minus(HALF + 1),
    ];
    for ack in acks {
        open(calls);
        calls.arrive(&SegmentBuilder::data(NEXT, ack, 1).window(7));
    }
}

/// 29 goes by SND.NXT and comes first, also 2^31 before SND.UNA; 31 goes by SND.UNA.
fn outstanding(calls: &mut CallList) {
    let nxt = UNA.plus(10);
    let acks = [
        UNA.minus(HALF),
        nxt.plus(HALF - 1),
        nxt.plus(HALF),
        Seq(50),
        Seq(51),
    ];
    open(calls);
    calls.sent(10);
    for ack in acks {
        calls.arrive(&acking(ack, LARGER));
    }
}

/// SND.UNA is our ISS, one before SND.NXT.
fn our_syn_outstanding(calls: &mut CallList) {
    let opening = Opening {
        iss: UNA,
        ..opening()
    };
    calls.open(&opening, &syn_of(Seq(0), WINDOW).flags(SYN));
    both_sides(calls, UNA, 50);
    both_sides(calls, UNA, HALF - 1);
}

/// The oldest ACK, the one before it, or SND.UNA at the number 0 or past it; then 2^31 across it.
fn across_0(calls: &mut CallList) {
    for una in [0, 5, 49, 50, 51] {
        open_at(calls, Seq(una), WINDOW);
        both_sides(calls, Seq(una), 50);
    }
    for una in [5, HALF - 1, HALF, HALF + 1] {
        open_at(calls, Seq(una), WINDOW);
        both_sides(calls, Seq(una), HALF - 1);
        both_sides(calls, Seq(una), HALF);
    }
}

/// No ACK before SND.UNA is taken until a window of 1 is.
fn window_of_0(calls: &mut CallList) {
    open_at(calls, UNA, 0);
    calls.arrive(&acking(UNA.minus(1), 1));
    calls.arrive(&acking(UNA, 0));
    calls.arrive(&acking(UNA.minus(1), 1));
    calls.arrive(&acking(UNA, 1));
    both_sides(calls, UNA, 1);
}

/// The window of the opening stays the largest where every later one is smaller.
fn opening_value(calls: &mut CallList) {
    for window in [WINDOW, 65_535] {
        open_at(calls, UNA, window);
        both_sides(calls, UNA, window.into());
        calls.arrive(&acking(UNA, 20));
        both_sides(calls, UNA, window.into());
    }
}

/// Each window and the largest after it, with an ACK between a lower window and the largest.
fn rising_and_falling(calls: &mut CallList) {
    open(calls);
    for (window, largest) in [(80, 80), (10, 80), (0, 80), (79, 80), (81, 81), (1, 81)] {
        calls.arrive(&acking(UNA, window));
        both_sides(calls, UNA, largest);
        calls.arrive(&acking(UNA.minus(60), LARGER));
    }
}

/// Its own window would let an ACK in; it is dropped by the one before and leaves that. A taken one counts for the next segment.
fn judged_by_the_one_before(calls: &mut CallList) {
    open(calls);
    calls.arrive(&acking(Seq(50), 51));
    calls.arrive(&acking(Seq(50), 51));
    // Not new, so its window is not taken over.
    calls.arrive(&acking(Seq(51), 51));
    calls.arrive(&acking(Seq(50), 51));
    calls.arrive(&acking(UNA, 51));
    both_sides(calls, UNA, 51);
}

/// A new ACK moves the limit, with a lower window and with a larger one.
fn una_moves(calls: &mut CallList) {
    for (window, largest) in [(0, 50), (LARGER, 60)] {
        open(calls);
        calls.sent(10);
        both_sides(calls, UNA, 50);
        calls.arrive(&acking(UNA.plus(10), window));
        both_sides(calls, UNA.plus(10), largest);
    }
}

/// A window on a SEQ before WL1 does not count, nor one of a segment that is dropped: 24, 25, 26, 27, 28, 29.
fn not_taken_over(calls: &mut CallList) {
    open(calls);
    calls.arrive(&SegmentBuilder::data(NEXT.plus(1), UNA, 0).window(WINDOW));
    calls.arrive(&acking(UNA, LARGER));
    both_sides(calls, UNA, 50);
    let dropped = [
        (NEXT.minus(1), UNA, ACK),
        (NEXT, UNA, RST | ACK),
        (NEXT.plus(2), UNA, RST | ACK),
        (NEXT.plus(2), UNA, SYN | ACK),
        (NEXT.plus(2), UNA, 0),
        (NEXT.plus(2), UNA.plus(1), ACK),
    ];
    for (seq, ack, flags) in dropped {
        calls.arrive(&SegmentBuilder::new(seq, ack, flags).window(LARGER));
        both_sides(calls, UNA, 50);
    }
}

/// The window of the opening is not scaled, later ones are; the largest window that there can be.
fn scaled(calls: &mut CallList) {
    for (shift, window) in [(3, WINDOW), (14, 4), (14, 65_535)] {
        let opening = Opening {
            iss: UNA.minus(1),
            shift: Some(shift),
            ..opening()
        };
        let largest = u32::from(window) << shift;
        calls.open(&opening, &syn_of(UNA, WINDOW).scale(shift));
        both_sides(calls, UNA, 50);
        calls.arrive(&acking(UNA.minus(largest), LARGER));
        calls.arrive(&acking(UNA, window));
        both_sides(calls, UNA, largest);
        calls.arrive(&acking(UNA, window - 1));
        both_sides(calls, UNA, largest);
    }
    both_sides(calls, UNA, HALF - 1);
    both_sides(calls, UNA, HALF);
}

/// Eight ranges are held: a ninth with an ACK too old is 31, with any other 30, whose window does not count.
fn before_no_room(calls: &mut CallList) {
    open(calls);
    for index in 1..=8 {
        let segment = SegmentBuilder::data(NEXT.plus(10 * index), UNA, 1);
        calls.arrive(&segment.window(WINDOW));
    }
    for ack in [Seq(50), Seq(51), UNA, Seq(50)] {
        let ninth = SegmentBuilder::data(NEXT.plus(90), ack, 1);
        calls.arrive(&ninth.window(LARGER));
    }
    // At RCV.NXT there is room always.
    for ack in [Seq(50), Seq(51)] {
        calls.arrive(&SegmentBuilder::data(NEXT, ack, 1));
    }
}

/// An ACK before the oldest of the shared opening, whose window is 8,192.
fn shared_too_old() -> Seq {
    cases::UNA.minus(8_193)
}

/// 21 to 28 come before it, whatever the ACK is.
fn after_the_others(calls: &mut CallList) {
    let flagged = |seq, flags| SegmentBuilder::new(seq, shared_too_old(), flags);
    let valued = |seq, flags, value| flagged(seq, flags).timestamps(value, Stamp(0));
    calls.open_with_timestamps();
    calls.arrive(&flagged(NEXT, ACK));
    calls.arrive(&valued(NEXT, ACK, RECENT.minus(1)));
    calls.arrive(&flagged(NEXT.minus(1), RST | ACK));
    calls.arrive(&valued(NEXT.minus(1), ACK, RECENT));
    calls.arrive(&flagged(NEXT, RST | ACK));
    calls.arrive(&flagged(NEXT.plus(1), RST | ACK));
    calls.arrive(&valued(NEXT, SYN | ACK, RECENT));
    calls.arrive(&valued(NEXT, FIN, RECENT));
    calls.arrive(&valued(NEXT, ACK | FIN, RECENT));
}

/// Payload, FIN, a later TSval, echo, block and window: with an ACK too old none counts, with the next all but echo and window.
fn dropped_and_taken(calls: &mut CallList) {
    let block = Range {
        left: cases::UNA.plus(10),
        right: cases::UNA.plus(20),
    };
    calls.open_with_timestamps();
    calls.sent(100);
    for ack in [shared_too_old(), shared_too_old().plus(1)] {
        let segment = SegmentBuilder::data(NEXT, ack, 3)
            .flags(ACK | FIN)
            .window(65_535)
            .timestamps(RECENT.plus(1), Stamp(9_900))
            .sack(&[block]);
        calls.arrive_at(CLOCK + 5, &segment);
    }
    // TS.Recent is the later one now.
    calls.arrive_at(CLOCK + 5, &stamped(NEXT.plus(4), 1));
}

/// It leaves the largest window, and an opening that is not refused starts anew.
fn refused_opening(calls: &mut CallList) {
    open(calls);
    calls.arrive(&acking(UNA, LARGER));
    let too_wide = Opening {
        window: 65_536,
        ..opening()
    };
    calls.open(&too_wide, &syn_of(UNA, 65_535));
    both_sides(calls, UNA, 60);
    open(calls);
    both_sides(calls, UNA, 50);
}

#[cfg(test)]
mod tests {
    use super::*;

    /// The number of each arrival.
    fn numbers(cases: fn(&mut CallList)) -> Vec<u8> {
        let arrivals = CallList::answers(cases, "arrive");
        let number = |line: &String| line.split(' ').nth(1).and_then(|word| word.parse().ok());
        arrivals.iter().filter_map(number).collect()
    }

    #[test]
    fn limits() {
        assert_eq!(numbers(edges), [29, 0, 0, 0, 31, 31, 31, 29]);
        assert_eq!(numbers(outstanding), [29, 29, 31, 31, 0]);
        assert_eq!(numbers(our_syn_outstanding), [0, 31, 31, 29]);
        assert_eq!(
            numbers(across_0),
            [[0, 31].repeat(5), [31, 31, 31, 29].repeat(4)].concat()
        );
    }

    #[test]
    fn largest_windows() {
        assert_eq!(numbers(window_of_0), [31, 0, 31, 0, 0, 31]);
        assert_eq!(numbers(opening_value), [0, 31, 0, 0, 31].repeat(2));
        assert_eq!(numbers(rising_and_falling), [0, 0, 31, 0].repeat(6));
        assert_eq!(numbers(judged_by_the_one_before), [31, 31, 0, 31, 0, 0, 31]);
        assert_eq!(numbers(una_moves), [0, 31, 0, 0, 31].repeat(2));
        assert_eq!(numbers(refused_opening), [0, 0, 31, 0, 31]);
        let after_each = [24, 25, 26, 27, 28, 29].map(|number| [number, 0, 31]);
        let expected = [vec![0, 0, 0, 31], after_each.concat()].concat();
        assert_eq!(numbers(not_taken_over), expected);
        let expected = [
            [0, 31, 31, 0, 0, 31, 0, 0, 31].repeat(3),
            vec![31, 31, 31, 29],
        ];
        assert_eq!(numbers(scaled), expected.concat());
    }

    #[test]
    fn order() {
        let expected = [[0; 8].to_vec(), vec![31, 30, 30, 31, 31, 0]];
        assert_eq!(numbers(before_no_room), expected.concat());
        assert_eq!(
            numbers(after_the_others),
            [21, 22, 23, 24, 25, 26, 27, 28, 31]
        );
        assert_eq!(numbers(dropped_and_taken), [31, 0, 22]);
    }
}
