//! Segments at the limits of reading, by every call that reads one.

use crate::builder::{SegmentBuilder, MAX_OPTIONS};
use crate::cases::{data, opening, CLOCK, NEXT, UNA};
use crate::ranges::Range;
use crate::script::Call;
use crate::segment::ACK;
use crate::serial::{Seq, Stamp};

use super::calls::CallList;

const KNOWN_KINDS: [u8; 5] = [2, 3, 4, 5, 8];

pub fn add(calls: &mut CallList) {
    calls.open_plain();
    for segment in faulty_headers().iter().chain(&faulty_options()) {
        add_everywhere(calls, segment);
    }
    for kind in KNOWN_KINDS {
        add_every_length(calls, kind);
        add_repeated(calls, kind);
    }
    for segment in readable() {
        calls.read_by_both(&segment);
    }
}

/// By read, by the C entry, by an arrival and by both ways of opening.
pub fn add_everywhere(calls: &mut CallList, segment: &[u8]) {
    calls.read_by_both(segment);
    calls.arrive_octets(CLOCK, segment);
    let opening = opening();
    calls.add(&Call::Open { opening, segment });
    calls.add(&Call::OpenUnderProfile { opening, segment });
}

fn header() -> SegmentBuilder {
    SegmentBuilder::new(NEXT, UNA, ACK)
}

pub fn with_options(options: &[u8]) -> Vec<u8> {
    header().options(options).build()
}

/// A segment cut or filled up to a length, with the data offset set.
fn shaped(offset: u8, length: usize) -> Vec<u8> {
    let mut octets = header().build();
    octets[12] = offset << 4;
    octets.resize(length, 1);
    octets
}

fn faulty_headers() -> Vec<Vec<u8>> {
    vec![
        vec![],
        vec![0x50],
        shaped(5, 19),
        shaped(0, 20),
        shaped(4, 20),
        shaped(4, 40),
        shaped(6, 20),
        shaped(6, 23),
        shaped(15, 59),
    ]
}

fn faulty_options() -> Vec<Vec<u8>> {
    // Payload behind the header must not complete an option.
    let past_into_payload = header().options(&[254, 5, 0, 0]).payload(8).build();
    vec![
        // E4: no length octet, length under 2, past the header.
        with_options(&[1, 1, 1, 8]),
        with_options(&[254, 0, 0, 0]),
        with_options(&[254, 1, 0, 0]),
        with_options(&[8, 0, 0, 0]),
        with_options(&[2, 1, 0, 0]),
        past_into_payload,
        with_options(&[8, 10, 0, 0]),
        // E5, and the first faulty option from the left decides.
        with_options(&[8, 9, 0, 0, 0, 0, 0, 0, 0, 1, 1, 1]),
        with_options(&[4, 3, 0, 254, 1, 0, 0, 0]),
        with_options(&[254, 1, 4, 3]),
        // E6, and E5 before E6 at one option.
        with_options(&[4, 2, 4, 2]),
        with_options(&[4, 2, 4, 3, 0, 0, 0, 0]),
        with_options(&[3, 3, 1, 254, 2, 3, 3, 1, 254, 0, 0, 0]),
    ]
}

/// An option of so many octets.
pub fn filled_option(kind: u8, length: usize) -> Vec<u8> {
    let mut option = vec![kind, length as u8];
    option.resize(length, 7);
    option
}

/// One known kind with every length that a header has room for.
fn add_every_length(calls: &mut CallList, kind: u8) {
    for length in 2..=MAX_OPTIONS {
        calls.read_by_both(&with_options(&filled_option(kind, length)));
    }
}

fn add_repeated(calls: &mut CallList, kind: u8) {
    let length = match kind {
        2 => 4,
        3 => 3,
        4 => 2,
        _ => 10,
    };
    let option = filled_option(kind, length);
    calls.read_by_both(&header().options(&option).options(&option).build());
}

fn readable() -> Vec<Vec<u8>> {
    let all_kinds = data(NEXT, 3)
        .mss(1_460)
        .scale(15)
        .sack_permitted()
        .timestamps(Stamp(u32::MAX), Stamp(1))
        .sack(&blocks(2))
        .urgent(513);
    let mut low_half_set = header().build();
    low_half_set[12] |= 0x0f;
    let mut segments = vec![
        shaped(5, 20),
        shaped(6, 24),
        shaped(15, 60),
        with_options(&[1; MAX_OPTIONS]),
        // Nothing behind kind 0 is looked at.
        with_options(&[1, 0, 8, 255]),
        with_options(&[0, 4, 4, 4]),
        // An unknown kind may come twice, and take all the room.
        with_options(&[6, 2, 6, 2]),
        with_options(&[9, 2, 254, 2, 254, 2, 9, 2]),
        with_options(&filled_option(254, MAX_OPTIONS)),
        all_kinds.build(),
        all_kinds.flags(0xff).build(),
        low_half_set,
    ];
    segments.extend((1..=4).map(|count| header().sack(&blocks(count)).build()));
    segments
}

fn blocks(count: u32) -> Vec<Range> {
    (0..count)
        .map(|at| Range {
            left: Seq(u32::MAX - at),
            right: Seq(at),
        })
        .collect()
}
