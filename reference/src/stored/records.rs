//! Records that cases start from, each reached by calls from an opening.

use crate::builder::SegmentBuilder;
use crate::connection::Opening;
use crate::options::NOP;
use crate::ranges::Range;
use crate::segment::{ACK, SYN};
use crate::serial::{Seq, Stamp};

use super::calls::CallList;

/// The clock of these openings, at which TS.Recent is set.
pub const SET: u64 = 100;
/// A TSecr that gives a sample of 2^32 - 1 at that clock, which the timer leaves out.
const LEFT_OUT: u32 = 108;

/// The calls that lead to a record.
pub type Start = fn(&mut CallList);

/// Our side: shift 2, timestamps and SACK offered; our timestamp is the clock and 7 more.
pub fn own() -> Opening {
    Opening {
        iss: Seq(1_000),
        shift: Some(2),
        timestamps: true,
        sack: true,
        window: 65_535,
        offset: 7,
        clock: SET,
    }
}

/// The peer's SYN without options; it does not acknowledge ours.
pub fn bare_syn(seq: u32) -> SegmentBuilder {
    SegmentBuilder::syn(Seq(seq))
}

/// The peer's SYN with MSS 1,460 and every offer: SACK, timestamps from 50 on, shift 3.
pub fn full_syn(seq: u32) -> SegmentBuilder {
    bare_syn(seq)
        .mss(1_460)
        .sack_permitted()
        .timestamps(Stamp(50), Stamp(0))
        .options(&[NOP])
        .scale(3)
}

/// A segment without payload and with window field 9.
pub fn segment(seq: u32, ack: u32, flags: u8) -> SegmentBuilder {
    SegmentBuilder::new(Seq(seq), Seq(ack), flags).window(9)
}

/// A segment with ACK that has timestamps behind two NOPs.
pub fn stamped(seq: u32, ack: u32, value: u32, echo: u32) -> SegmentBuilder {
    segment(seq, ack, ACK)
        .options(&[NOP, NOP])
        .timestamps(Stamp(value), Stamp(echo))
}

/// Ranges by their edges.
pub fn ranges(edges: &[(u32, u32)]) -> Vec<Range> {
    edges
        .iter()
        .map(|&(left, right)| Range {
            left: Seq(left),
            right: Seq(right),
        })
        .collect()
}

/// RCV.NXT 5,000, TS.Recent 50, our SYN outstanding from 1,000; scaling, timestamps and SACK in force.
pub fn extended(calls: &mut CallList) {
    calls.open(&own(), &full_syn(4_999));
}

/// The same numbers with nothing in force, as the peer offers nothing.
pub fn bare(calls: &mut CallList) {
    calls.open(&own(), &bare_syn(4_999));
}

/// Acknowledges our SYN, so that SND.UNA is 1,001, SND.WND 72, WL1 5,000; the timer stays new.
fn acknowledge_our_syn(calls: &mut CallList) {
    calls.arrive_at(SET, &stamped(5_000, 1_001, 50, LEFT_OUT));
}

/// Everything in force and a receive window of its own, with our SYN acknowledged.
fn with_window(calls: &mut CallList, window: u32) {
    let opening = Opening { window, ..own() };
    calls.open(&opening, &full_syn(4_999));
    acknowledge_our_syn(calls);
}

/// A receive window of 0.
pub fn window_0(calls: &mut CallList) {
    with_window(calls, 0);
}

/// A receive window of 10.
pub fn window_10(calls: &mut CallList) {
    with_window(calls, 10);
}

/// Eight ranges held, of 10 numbers each: the newest at 6,700, the oldest at 6,000.
pub fn full(calls: &mut CallList) {
    with_window(calls, 65_535);
    for index in 0..8 {
        // An ACK before SND.UNA leaves WL1.
        calls.arrive_at(SET, &stamped(6_000 + 100 * index, 1_000, 50, 0).payload(10));
    }
}

/// Last.ACK.sent 4,900 behind RCV.NXT 5,000, and a window opened again to 65,535.
pub fn behind(calls: &mut CallList) {
    calls.open(&own(), &full_syn(4_899));
    calls.arrive_at(SET, &stamped(4_900, 1_000, 50, 0).payload(100));
    calls.window(65_535);
    acknowledge_our_syn(calls);
}

/// Everything in force, and 4,000 octets outstanding from 1,001 on.
pub fn unacknowledged(calls: &mut CallList) {
    extended(calls);
    calls.sent(4_000);
    acknowledge_our_syn(calls);
}

/// The same after a sample of 2,000 ms.
pub fn sampled(calls: &mut CallList) {
    extended(calls);
    calls.sent(4_000);
    let echo = Stamp::of_clock(SET, 7).minus(2_000);
    calls.arrive_at(SET, &stamped(5_000, 1_001, 50, echo.0));
}

/// 4,000 octets outstanding, with nothing in force.
pub fn outstanding(calls: &mut CallList) {
    bare(calls);
    calls.sent(4_000);
    calls.arrive_at(SET, &segment(5_000, 1_001, ACK));
}

/// 4,000 octets outstanding, with SACK alone in force.
pub fn outstanding_with_sack(calls: &mut CallList) {
    let syn = bare_syn(4_999).sack_permitted().options(&[NOP, NOP]);
    calls.open(&own(), &syn);
    calls.sent(4_000);
    calls.arrive_at(SET, &segment(5_000, 1_001, ACK));
}

/// 4,000 octets outstanding, with timestamps alone in force and TS.Recent 0.
pub fn outstanding_with_timestamps(calls: &mut CallList) {
    calls.open(&own(), &stamped(4_999, 0, 0, 0).flags(SYN).window(8_192));
    calls.sent(4_000);
    calls.arrive_at(SET, &stamped(5_000, 1_001, 0, LEFT_OUT));
}

#[cfg(test)]
mod tests {
    use super::*;
    use crate::connection::Connection;
    use crate::timer::Timer;

    fn reached(start: Start) -> Connection {
        let mut calls = CallList::default();
        start(&mut calls);
        calls.connection()
    }

    fn receive_side(start: Start) -> (u32, u32, u32, usize) {
        let record = reached(start);
        let held = record.held.as_slice().len();
        (
            record.rcv_nxt.0,
            record.rcv_wnd,
            record.last_ack_sent.0,
            held,
        )
    }

    fn send_side(start: Start) -> [u32; 5] {
        let record = reached(start);
        let numbers = [
            record.snd_una,
            record.snd_nxt,
            record.snd_wl1,
            record.snd_wl2,
        ];
        let [una, nxt, wl1, wl2] = numbers.map(|number| number.0);
        [una, nxt, record.snd_wnd, wl1, wl2]
    }

    #[test]
    fn receive_sides() {
        assert_eq!(receive_side(extended), (5_000, 65_535, 5_000, 0));
        assert_eq!(receive_side(window_0), (5_000, 0, 5_000, 0));
        assert_eq!(receive_side(window_10), (5_000, 10, 5_000, 0));
        assert_eq!(receive_side(full), (5_000, 65_535, 5_000, 8));
        assert_eq!(receive_side(behind), (5_000, 65_535, 4_900, 0));
    }

    #[test]
    fn send_sides() {
        assert_eq!(send_side(extended), [1_000, 1_001, 8_192, 4_999, 1_000]);
        for start in [window_0, full, behind] {
            assert_eq!(send_side(start), [1_001, 1_001, 72, 5_000, 1_001]);
        }
        assert_eq!(send_side(unacknowledged), [1_001, 5_001, 72, 5_000, 1_001]);
        for start in [
            outstanding,
            outstanding_with_sack,
            outstanding_with_timestamps,
        ] {
            assert_eq!(send_side(start), [1_001, 5_001, 9, 5_000, 1_001]);
        }
    }

    #[test]
    fn timers() {
        for start in [unacknowledged, full, behind, outstanding_with_timestamps] {
            assert_eq!(reached(start).timer, Timer::default());
        }
        assert_eq!(reached(sampled).timer.rto, 6_004);
    }

    #[test]
    fn what_is_in_force() {
        let in_force = |start| {
            let record = reached(start);
            (
                record.rcv_shift,
                record.snd_shift,
                record.timestamps,
                record.sack,
            )
        };
        assert_eq!(in_force(extended), (2, 3, true, true));
        assert_eq!(in_force(bare), (0, 0, false, false));
        assert_eq!(in_force(outstanding_with_sack), (0, 0, false, true));
        assert_eq!(in_force(outstanding_with_timestamps), (0, 0, true, false));
    }
}
