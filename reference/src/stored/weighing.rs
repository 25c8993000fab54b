//! Samples with N: the timer that stands by itself, and records on both sides of every place where N turns.

use crate::builder::SegmentBuilder;
use crate::cases::{opening, syn, CLOCK, ISS, NEXT, RECENT};
use crate::connection::Opening;
use crate::script::Call;
use crate::segment::{ACK, SYN};
use crate::serial::{Seq, Stamp};
use crate::timer::{MAX_EXPECTED, MAX_SAMPLE};

use super::calls::CallList;

/// Outside 1 to 16, also where the low octets are inside.
const REFUSED: [u32; 8] = [0, 17, 32, 257, 65_537, 1 << 31, (1 << 31) + 1, u32::MAX];

pub fn add(calls: &mut CallList) {
    every_n(calls);
    refused_ns(calls);
    changing_n(calls);
    largest_samples(calls);
    rounding(calls);
    turns(calls);
    turns_across_0(calls);
    falling(calls);
    before_the_ack(calls);
    first_samples(calls);
    after_our_syn(calls);
    left_out(calls);
    mss_of_the_syn(calls);
}

/// Each N as that of the first sample, of a later one, and of one after it.
fn every_n(calls: &mut CallList) {
    for expected in 1..=MAX_EXPECTED {
        calls.add(&Call::Timer);
        calls.sample_with_n(1_000, expected);
        calls.sample_with_n(3_003, expected);
        calls.sample_with_n(7, MAX_EXPECTED + 1 - expected);
    }
}

/// On a new timer, on one that expired, on one with a sample, and beside an R that is refused too.
fn refused_ns(calls: &mut CallList) {
    calls.add(&Call::Timer);
    calls.sample_with_n(1_000, 0);
    calls.add(&Call::Expiry);
    for expected in REFUSED {
        calls.sample_with_n(1_000, expected);
    }
    calls.sample_with_n(1_000, 16);
    calls.add(&Call::Expiry);
    for expected in REFUSED {
        calls.sample_with_n(3_003, expected);
        calls.sample_with_n(MAX_SAMPLE + 1, expected);
    }
    for expected in [1, 16] {
        calls.sample_with_n(MAX_SAMPLE + 1, expected);
        calls.sample_with_n(MAX_SAMPLE, expected);
    }
}

/// N rises and falls from sample to sample, with refused samples and expiries between, which leave S and V.
fn changing_n(calls: &mut CallList) {
    calls.add(&Call::Timer);
    calls.sample_with_n(2_000, 9);
    for expected in (1..=MAX_EXPECTED).chain((1..=MAX_EXPECTED).rev()) {
        calls.sample_with_n(3_003, expected);
        calls.sample_with_n(7 * expected, MAX_EXPECTED + 1 - expected);
        match expected {
            3 => calls.sample_with_n(3_003, 17),
            7 => calls.sample_with_n(MAX_SAMPLE + 1, 7),
            11 => calls.add(&Call::Expiry),
            _ => {}
        }
    }
}

/// The largest S, V and difference of S and R.
fn largest_samples(calls: &mut CallList) {
    for expected in [15, 16] {
        calls.add(&Call::Timer);
        for round_trip in [MAX_SAMPLE, MAX_SAMPLE, 0, MAX_SAMPLE, 0] {
            calls.sample_with_n(round_trip, expected);
        }
    }
}

/// S and V are rounded down at almost every step here.
fn rounding(calls: &mut CallList) {
    for expected in [3, 16] {
        calls.add(&Call::Timer);
        for step in 0..24 {
            calls.sample_with_n(if step % 2 == 0 { 1_237 } else { 3 }, expected);
        }
        for _ in 0..12 {
            calls.sample_with_n(1, expected);
        }
    }
}

/// A record with timestamps in force whose octets are sent and acknowledged in turn.
struct Flight<'a> {
    calls: &'a mut CallList,
    una: Seq,
    outstanding: u32,
    acks: u32,
}

impl<'a> Flight<'a> {
    /// Opens with the widest windows by this SYN of the peer.
    fn open(calls: &'a mut CallList, iss: Seq, syn: &SegmentBuilder) -> Flight<'a> {
        let opening = Opening {
            iss,
            shift: Some(14),
            timestamps: true,
            ..opening()
        };
        calls.open(&opening, syn);
        Flight {
            calls,
            una: iss.plus(1),
            outstanding: 0,
            acks: 0,
        }
    }

    /// Opens with this MSS, or none, and takes a first sample of 1,000 ms, with which the send window is scaled.
    fn sampled(calls: &'a mut CallList, iss: Seq, mss: Option<u16>) -> Flight<'a> {
        let mut flight = Flight::open(calls, iss, &peer_syn(iss, mss));
        flight.fill(1);
        flight.ack_after(1, 1_000);
        flight
    }

    /// Sends until so many octets are outstanding.
    fn fill(&mut self, outstanding: u32) {
        self.calls.sent(outstanding - self.outstanding);
        self.outstanding = outstanding;
    }

    /// So many octets are acknowledged, with samples in turn far above S and far below it.
    fn ack(&mut self, octets: u32) {
        self.acks += 1;
        self.ack_after(octets, if self.acks % 2 == 1 { 3_003 } else { 7 });
    }

    fn ack_after(&mut self, octets: u32, round_trip: u32) {
        let segment = self.acking(octets, round_trip);
        self.calls.arrive(&segment);
    }

    /// A segment that acknowledges so many octets, with an echo that gives this sample.
    fn acking(&mut self, octets: u32, round_trip: u32) -> SegmentBuilder {
        self.una = self.una.plus(octets);
        self.outstanding -= octets;
        let echo = Stamp::of_clock(CLOCK, 0).minus(round_trip);
        SegmentBuilder::data(NEXT, self.una, 0)
            .window(65_535)
            .timestamps(RECENT, echo)
    }

    /// One octet of each of these numbers of outstanding octets, which rise, is acknowledged.
    fn ack_one_of_each(&mut self, outstanding: &[u32]) {
        for &outstanding in outstanding {
            self.fill(outstanding);
            self.ack(1);
        }
    }
}

/// The peer's SYN that acknowledges ours, with this MSS, or none.
fn peer_syn(iss: Seq, mss: Option<u16>) -> SegmentBuilder {
    let syn = SegmentBuilder::new(NEXT.minus(1), iss.plus(1), SYN | ACK)
        .window(65_535)
        .scale(14)
        .timestamps(RECENT, Stamp(0));
    match mss {
        Some(mss) => syn.mss(mss),
        None => syn,
    }
}

/// Both sides of N = 1 and 2, of 15 and 16, and of 16 and what would be 17, by MSS: none, below 64, 64, above, and so large
/// that twice the MSS or what is outstanding does not fit 16 bits.
fn turns(calls: &mut CallList) {
    let cases: [(Option<u16>, &[u32]); 9] = [
        (
            None,
            &[
                1, 1_072, 1_073, 2_144, 2_145, 15_008, 16_080, 16_081, 17_152, 17_153,
            ],
        ),
        (Some(0), &[1, 128, 129, 1_920, 1_921, 2_049]),
        (Some(63), &[126, 127, 128, 129, 1_890, 1_891, 1_920, 1_921]),
        (Some(64), &[128, 129, 1_920, 1_921, 1_073_725_440]),
        (Some(65), &[128, 129, 130, 131, 1_950, 1_951]),
        (Some(536), &[1_072, 1_073]),
        (Some(1_460), &[2_920, 2_921, 43_800, 43_801, 65_536, 65_537]),
        (
            Some(32_768),
            &[65_535, 65_536, 65_537, 131_072, 983_040, 983_041],
        ),
        (
            Some(65_535),
            &[
                65_535,
                65_537,
                131_070,
                131_071,
                1_966_050,
                1_966_051,
                2_097_121,
                1_073_725_440,
            ],
        ),
    ];
    for (mss, outstanding) in cases {
        Flight::sampled(calls, ISS, mss).ack_one_of_each(outstanding);
    }
}

/// SND.NXT is past the number 0 and SND.UNA before it.
fn turns_across_0(calls: &mut CallList) {
    Flight::sampled(calls, Seq(u32::MAX - 500), None).ack_one_of_each(&[1_072, 1_073, 3_217]);
}

/// One octet past each turn is outstanding before each ACK: N falls from 16 to 1.
fn falling(calls: &mut CallList) {
    let mut flight = Flight::sampled(calls, ISS, None);
    flight.fill(16 * 1_072 + 1);
    for _ in 0..16 {
        flight.ack(1_072);
    }
    flight.ack(1);
}

/// N = 5, whatever the ACK covers and leaves.
fn before_the_ack(calls: &mut CallList) {
    let mut flight = Flight::sampled(calls, ISS, None);
    for octets in [1, 700, 2_500, 4_300, 4_999, 5_000] {
        flight.fill(5_000);
        flight.ack(octets);
    }
}

/// A first sample is the same with any N, and the next one has an N of its own.
fn first_samples(calls: &mut CallList) {
    let cases = [
        (60_000, 1, 60_000),
        (60_000, 60_000, 1_500),
        (2_000, 1_500, 1_500),
    ];
    for (outstanding, octets, next) in cases {
        let mut flight = Flight::open(calls, ISS, &peer_syn(ISS, None));
        flight.fill(outstanding);
        flight.ack_after(octets, 1_000);
        flight.fill(next);
        flight.ack(1);
    }
}

/// Our SYN is outstanding as one octet until the first new ACK, whose sample is the first or is left out.
fn after_our_syn(calls: &mut CallList) {
    let syn = syn().flags(SYN).timestamps(RECENT, Stamp(0));
    for (sent, first) in [(1_072, 1_000), (1_073, 1_000), (1_073, MAX_SAMPLE + 1)] {
        let mut flight = Flight::open(calls, ISS, &syn);
        flight.fill(sent);
        flight.ack_after(0, first);
        flight.ack(1);
        flight.ack(1);
    }
}

/// R above the limit, with N = 16, before a first sample and after it; an ACK that is not new; an expiry.
fn left_out(calls: &mut CallList) {
    let mut flight = Flight::open(calls, ISS, &peer_syn(ISS, None));
    flight.fill(60_000);
    for round_trip in [MAX_SAMPLE + 1, 1_000, MAX_SAMPLE + 1, u32::MAX, MAX_SAMPLE] {
        flight.ack_after(1, round_trip);
    }
    flight.ack_after(0, 3_003);
    flight.calls.add(&Call::Expire);
    flight.ack_after(1, MAX_SAMPLE + 1);
    flight.ack(1);
}

/// An MSS that comes with the ACK does not count, nor that of a SYN which is dropped or of an opening which is refused.
fn mss_of_the_syn(calls: &mut CallList) {
    let mut flight = Flight::sampled(calls, ISS, Some(1_460));
    flight.fill(10_000);
    let with_mss = flight.acking(1, 3_003).mss(64);
    flight.calls.arrive(&with_mss);
    let later_syn = flight.acking(0, 7).flags(SYN | ACK).mss(64);
    flight.calls.arrive(&later_syn);
    let too_wide = Opening {
        window: 65_536,
        ..opening()
    };
    flight.calls.open(&too_wide, &peer_syn(ISS, Some(64)));
    flight.ack(1);
}

#[cfg(test)]
mod tests {
    use super::*;
    use crate::connection::Connection;
    use crate::play::Player;
    use crate::script::Calls;
    use crate::segment::Segment;
    use crate::timer::Sample;

    /// N of each sample after a first one, as S and V show it: each time no other N gives the same.
    fn shown(cases: fn(&mut CallList)) -> Vec<u32> {
        let mut calls = CallList::default();
        cases(&mut calls);
        let script = calls.into_script();
        let mut player = Player::default();
        let mut shown = Vec::new();
        for call in Calls::new(&script) {
            let call = call.unwrap();
            let before = player.connection().copied();
            player.play(&call, &mut String::new());
            let after = player.connection().copied();
            if let (Call::Arrive { clock, segment }, Some(before), Some(after)) =
                (call, before, after)
            {
                if before.timer.sampled && before.timer != after.timer {
                    shown.push(only_n(&before, &after, clock, segment));
                }
            }
        }
        shown
    }

    /// The N by which the sample of a segment leads from one timer to the other.
    fn only_n(before: &Connection, after: &Connection, clock: u64, segment: &[u8]) -> u32 {
        let segment = Segment::read(segment).result.unwrap();
        let echo = segment.options.timestamps.unwrap().echo;
        let round_trip = before.stamp(clock).since(echo);
        let leads_there = |&expected: &u32| {
            let mut timer = before.timer;
            let sample = Sample::new(round_trip, expected);
            timer.sample(sample) == Ok(()) && timer == after.timer
        };
        let found: Vec<u32> = (1..=MAX_EXPECTED).filter(leads_there).collect();
        assert_eq!(found.len(), 1, "{:?}", found);
        found[0]
    }

    #[test]
    fn n_turns_in_records() {
        let by_mss: [&[u32]; 9] = [
            &[1, 1, 2, 2, 3, 14, 15, 16, 16, 16],
            &[1, 1, 2, 15, 16, 16],
            &[1, 1, 1, 2, 15, 15, 15, 16],
            &[1, 2, 15, 16, 16],
            &[1, 1, 1, 2, 15, 16],
            &[1, 2],
            &[1, 2, 15, 16, 16, 16],
            &[1, 1, 2, 2, 15, 16],
            &[1, 1, 1, 2, 15, 16, 16, 16],
        ];
        assert_eq!(shown(turns), by_mss.concat());
        assert_eq!(shown(turns_across_0), [1, 2, 4]);
    }

    #[test]
    fn n_goes_by_what_is_outstanding_before_the_ack() {
        let falling_by_one: Vec<u32> = (1..=16).rev().collect();
        assert_eq!(shown(falling), [vec![16], falling_by_one].concat());
        assert_eq!(shown(before_the_ack), [5; 6]);
        assert_eq!(shown(first_samples), [16, 2, 2]);
        assert_eq!(shown(after_our_syn), [1, 1, 2, 1, 1]);
        assert_eq!(shown(left_out), [16, 16]);
        assert_eq!(shown(mss_of_the_syn), [4, 4]);
    }
}
