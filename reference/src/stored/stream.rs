//! The stored stream of the measuring program: arrivals of several kinds on one record, and orders of rounds.

use crate::bench;
use crate::builder::SegmentBuilder;
use crate::cases::{data, stamped, NEXT, RECENT, UNA};
use crate::ranges::Range;
use crate::serial::{Seq, Stamp};

use super::calls::CallList;

const SENT: u32 = 5_000;
const LENGTH: usize = 500;
const ORDERS: [u32; 4] = [0, 1, 2, 1_000];

/// The stored stream with its orders; it is always the same.
pub fn stream() -> Vec<u8> {
    bench::stream(&prepared(), &measured(), &ORDERS)
}

/// A record with timestamps and SACK in force, octets sent, and one range held.
fn prepared() -> Vec<u8> {
    let mut calls = CallList::default();
    calls.open_with_timestamps();
    calls.sent(SENT);
    calls.window(65_535);
    calls.arrive(&stamped(at(8), LENGTH));
    calls.into_script()
}

/// In order, twice, out of order, with new ACKs and the peer's SACK blocks, and some that are dropped or refused.
fn measured() -> Vec<u8> {
    let mut calls = CallList::default();
    calls.arrive(&stamped(at(0), LENGTH));
    calls.arrive(&stamped(at(0), LENGTH));
    calls.arrive(&later(1).sack(&[block(10), block(20), block(30)]));
    calls.arrive(&stamped(at(4), LENGTH));
    calls.arrive(&stamped(at(6), LENGTH));
    calls.arrive(&data(at(2), LENGTH));
    calls.arrive(&data(at(2), LENGTH).timestamps(Stamp(RECENT.0 - 1), Stamp(0)));
    calls.arrive(&stamped(at(2), LENGTH).options(&[254, 1]));
    calls.arrive(&later(2));
    calls.into_script()
}

/// Where the segment of this place starts.
fn at(place: u32) -> Seq {
    NEXT.plus(place * LENGTH as u32)
}

/// A segment that acknowledges more octets than the one before it, with an echo that gives a sample.
fn later(place: u32) -> SegmentBuilder {
    SegmentBuilder::data(at(place), UNA.plus(100 * place), LENGTH).timestamps(RECENT, Stamp(9_900))
}

/// A block of 50 octets above SND.UNA.
fn block(place: u32) -> Range {
    Range {
        left: UNA.plus(100 * place),
        right: UNA.plus(100 * place + 50),
    }
}
