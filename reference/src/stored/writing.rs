//! The octets of acknowledgments whose numbers have four different octets: options in force, ranges held, E7, E8, window fields.

use crate::builder::SegmentBuilder;
use crate::cases::opening;
use crate::connection::Opening;
use crate::script::Call;
use crate::segment::{ACK, SYN};
use crate::serial::{Seq, Stamp};

use super::calls::CallList;
use super::edges::open_at;

/// The clock at which TS.Recent is set.
const SET: u64 = 1_000;
/// A clock at which TSval is 0x0b0c0d0e.
const LATER: u64 = 0x0b0c_0d07;
/// TS.Recent.
const RECENT: Stamp = Stamp(0x1516_1718);
/// RCV.NXT, and SND.NXT.
const NEXT: Seq = Seq(0x0506_0708);
const SENT: Seq = Seq(0x0102_0304);

/// Where ranges of 100 numbers start, newest first, neither ascending nor descending.
const STARTS: [u32; 8] = [
    84_282_000, 84_285_000, 84_283_000, 84_284_000, 84_286_000, 84_287_000, 84_281_100, 84_288_000,
];

pub fn add(calls: &mut CallList) {
    in_force(calls);
    ranges_held(calls);
    too_short(calls);
    clock_went_back(calls);
    stamps_wrap(calls);
    nothing_new(calls);
    window_fields(calls);
    ports(calls);
}

/// A record with Last.ACK.sent behind RCV.NXT, a window of 18,643 at shift 2, and ranges held.
fn reach(calls: &mut CallList, timestamps: bool, sack: bool, held: usize) {
    const ADVANCE: u32 = 10;
    let first = NEXT.minus(ADVANCE);
    let opening = Opening {
        iss: SENT.minus(1),
        shift: Some(2),
        timestamps,
        sack,
        window: 18_643 + ADVANCE,
        offset: 7,
        clock: SET,
    };
    let syn = SegmentBuilder::new(first.minus(1), SENT, SYN | ACK)
        .mss(1_460)
        .sack_permitted()
        .timestamps(RECENT, Stamp(0))
        .scale(3);
    calls.open(&opening, &syn);
    arrive(calls, first, ADVANCE as usize);
    for &start in STARTS[..held].iter().rev() {
        arrive(calls, Seq(start), 100);
    }
}

fn arrive(calls: &mut CallList, seq: Seq, length: usize) {
    let segment = SegmentBuilder::data(seq, SENT, length).timestamps(RECENT, Stamp(0));
    calls.arrive_at(SET, &segment);
}

fn write_at(calls: &mut CallList, clock: u64, length: usize) {
    calls.add(&Call::Acknowledge {
        source: 258,
        destination: 65_534,
        clock,
        buffer: &vec![9; length],
    });
}

/// Nothing, timestamps, SACK and both, with five ranges held; later octets stay.
fn in_force(calls: &mut CallList) {
    for (timestamps, sack, length) in [
        (false, false, 22),
        (true, false, 33),
        (false, true, 58),
        (true, true, 61),
    ] {
        reach(calls, timestamps, sack, 5);
        write_at(calls, LATER, length);
    }
}

/// None to four ranges and eight, without timestamps and with them.
fn ranges_held(calls: &mut CallList) {
    let counts = [
        (0, 20, 32),
        (1, 32, 44),
        (2, 40, 52),
        (3, 48, 60),
        (4, 56, 60),
        (8, 56, 60),
    ];
    for (held, without, with) in counts {
        reach(calls, false, true, held);
        write_at(calls, LATER, without);
        reach(calls, true, true, held);
        write_at(calls, LATER, with);
    }
}

/// E7: an octet short, and no buffer.
fn too_short(calls: &mut CallList) {
    reach(calls, true, true, 5);
    write_at(calls, LATER, 59);
    reach(calls, true, false, 0);
    write_at(calls, LATER, 31);
    reach(calls, false, false, 0);
    write_at(calls, LATER, 19);
    write_at(calls, LATER, 0);
    reach(calls, false, true, 5);
    write_at(calls, LATER, 0);
}

/// E8 comes before E7, with no timestamps in force too; at the clock of TS.Recent there is none.
fn clock_went_back(calls: &mut CallList) {
    reach(calls, true, true, 0);
    write_at(calls, SET - 1, 60);
    reach(calls, false, false, 0);
    write_at(calls, SET - 1, 0);
    reach(calls, true, false, 0);
    write_at(calls, SET, 32);
}

/// Our timestamp wraps, also at the last clock; the clock of E8 does not.
fn stamps_wrap(calls: &mut CallList) {
    for clock in [u64::from(u32::MAX), (1 << 32) + 5, u64::MAX] {
        reach(calls, true, false, 0);
        write_at(calls, clock, 32);
    }
}

/// An acknowledgment after another, with nothing new.
fn nothing_new(calls: &mut CallList) {
    reach(calls, false, false, 0);
    write_at(calls, LATER, 20);
    write_at(calls, LATER, 20);
}

/// Windows that the shift divides and does not, up to the largest; the first window is as large as it can be.
fn window_fields(calls: &mut CallList) {
    let windows = [
        (0, 0),
        (65_535, 0),
        (65_535, 1),
        (65_534, 1),
        (1_007, 3),
        (8_388_480, 7),
        (8_388_479, 7),
        (16_383, 14),
        (16_384, 14),
        (1_073_725_440, 14),
    ];
    for (window, shift) in windows {
        open_at(calls, NEXT, window.min(65_535), shift);
        calls.window(window);
        calls.acknowledge(20);
    }
}

/// The largest numbers, and a port whose second octet is 0.
fn ports(calls: &mut CallList) {
    let opening = Opening {
        iss: Seq(u32::MAX - 1),
        ..opening()
    };
    calls.open(&opening, &SegmentBuilder::syn(NEXT));
    for (source, destination) in [(65_535, 258), (258, 65_280)] {
        calls.add(&Call::Acknowledge {
            source,
            destination,
            clock: opening.clock,
            buffer: &[
                1, 2, 3, 4, 5, 1, 2, 3, 4, 5, 1, 2, 3, 4, 5, 1, 2, 3, 4, 5, 1, 2,
            ],
        });
    }
}
