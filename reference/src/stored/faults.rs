//! Where an option went wrong: each fault at every place that it can have, and behind other options.

use std::ops::RangeInclusive;

use crate::builder::MAX_OPTIONS;
use crate::options::{MSS, NOP, SACK_PERMITTED};
use crate::segment::HEADER_LENGTH;

use super::calls::CallList;
use super::reading::{add_everywhere, filled_option, with_options};
use super::records::{extended, full_syn, own, stamped, SET};

const UNKNOWN: u8 = 254;
/// Where the longest header ends.
const LONGEST: usize = HEADER_LENGTH + MAX_OPTIONS;

pub fn add(calls: &mut CallList) {
    calls.open_plain();
    // The last octet of a header can be a kind without length octet.
    at_every_place(calls, HEADER_LENGTH..=LONGEST - 1, past_the_header);
    at_every_place(calls, HEADER_LENGTH..=LONGEST - 2, wrong_length);
    // A second option stands behind the first, and the shortest known one has 2 octets.
    at_every_place(calls, HEADER_LENGTH + 2..=LONGEST - 2, second);
    for options in [behind_others(), behind_a_long_one()].iter().flatten() {
        add_everywhere(calls, &with_options(options));
    }
    behind_usual_options(calls);
}

/// By read; at the least and the highest place by every call that reads.
fn at_every_place(
    calls: &mut CallList,
    places: RangeInclusive<usize>,
    options: fn(usize) -> Vec<u8>,
) {
    let limits = [*places.start(), *places.end()];
    for place in places {
        let segment = with_options(&options(place));
        if limits.contains(&place) {
            add_everywhere(calls, &segment);
        } else {
            calls.read(&segment);
        }
    }
}

/// The options of the longest header: NOPs, but for these kinds and lengths at their places.
fn among_nops(heads: &[(usize, [u8; 2])]) -> Vec<u8> {
    // One octet more, for a length octet that the header has no room for.
    let mut options = vec![NOP; MAX_OPTIONS + 1];
    for &(place, head) in heads {
        let at = place - HEADER_LENGTH;
        options[at..at + 2].copy_from_slice(&head);
    }
    options.truncate(MAX_OPTIONS);
    options
}

/// E4: past the header by one octet; in its last octet without length octet.
fn past_the_header(place: usize) -> Vec<u8> {
    let length = LONGEST - place + 1;
    among_nops(&[(place, [UNKNOWN, length as u8])])
}

/// E5: MSS without a value.
fn wrong_length(place: usize) -> Vec<u8> {
    among_nops(&[(place, [MSS, 2])])
}

/// E6: SACK-permitted, the first one at the front.
fn second(place: usize) -> Vec<u8> {
    let permitted = [SACK_PERMITTED, 2];
    among_nops(&[(HEADER_LENGTH, permitted), (place, permitted)])
}

/// Behind known and unknown options and NOPs.
fn behind_others() -> Vec<Vec<u8>> {
    vec![
        // E4: length 0, length 1.
        vec![4, 2, 254, 0],
        vec![254, 3, 0, 1, 2, 1, 0, 0],
        // Octets of a body that would be faults are none.
        vec![254, 6, 4, 3, 8, 1, 254, 0],
        // The first of two faults.
        vec![254, 2, 3, 4, 0, 0, 254, 0],
        // E6: the second option, not the first and not the third, with others between.
        vec![4, 2, 4, 2, 4, 2],
        vec![4, 2, 254, 3, 0, 1, 253, 2, 1, 4, 2],
        vec![2, 4, 2, 24, 3, 3, 7, 254, 5, 0, 0, 0, 2, 4, 2, 24],
    ]
}

/// At the header's end, behind one option that takes the octets up to there.
fn behind_a_long_one() -> Vec<Vec<u8>> {
    vec![
        [&filled_option(254, 39)[..], &[8]].concat(),
        [&filled_option(254, 38)[..], &[8, 2]].concat(),
        [&[4, 2][..], &filled_option(254, 36), &[4, 2]].concat(),
        [&filled_option(5, 34)[..], &[254, 7]].concat(),
    ]
}

/// E4, E5 and E6 behind the options that a SYN and a later segment usually have.
fn behind_usual_options(calls: &mut CallList) {
    let faults: [&[u8]; 3] = [&[254, 1], &[5, 2], &[8, 10, 0, 0, 0, 0, 0, 0, 0, 0]];
    extended(calls);
    for fault in faults {
        calls.open(&own(), &full_syn(4_999).options(fault));
        calls.arrive_at(SET, &stamped(5_000, 1_001, 50, 0).options(fault));
    }
}
