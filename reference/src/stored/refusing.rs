//! E1 to E6 on both sides of each limit, and their order, in segments whose other octets are 0.

use crate::builder::MAX_OPTIONS;
use crate::script::Call;
use crate::segment::MAX_SEGMENT;

use super::calls::CallList;
use super::fields;
use super::records::{extended, own, SET};

/// Timestamps, and SACK of one block.
const STAMPS: [u8; 10] = [8, 10, 0, 0, 0, 0, 0, 0, 0, 0];
const SACK: [u8; 10] = [5, 10, 0, 0, 0, 0, 0, 0, 0, 0];

pub fn add(calls: &mut CallList) {
    for segment in headers() {
        calls.read_by_both(&segment);
    }
    let lists = [broken(), lengths(), unknown(), repeated(), ordered()];
    for options in lists.iter().flatten() {
        calls.read_by_both(&with_options(options));
    }
    too_long(calls);
    every_kind(calls);
}

/// A segment with this octet 12, and these octets after the fixed header.
pub fn zeros(twelfth: u8, rest: &[u8]) -> Vec<u8> {
    let mut octets = vec![0; 20];
    octets[12] = twelfth;
    octets.extend_from_slice(rest);
    octets
}

/// A segment with these options, filled up with kind 0 to a multiple of 4.
fn with_options(options: &[u8]) -> Vec<u8> {
    let units = (options.len() + 3) / 4;
    let mut octets = zeros(16 * (5 + units as u8), options);
    octets.resize(20 + 4 * units, 0);
    octets
}

/// An option whose other octets are 0.
fn option(kind: u8, length: usize) -> Vec<u8> {
    let mut option = vec![kind, length as u8];
    option.resize(length, 0);
    option
}

fn headers() -> Vec<Vec<u8>> {
    vec![
        vec![],
        vec![80; 19],
        vec![80; 20],
        // Offset 4, then 5, of which the low half of the octet is not looked at.
        zeros(79, &[]),
        zeros(80, &[]),
        zeros(95, &[]),
        // 4 x offset past the end by an octet, and at it.
        zeros(96, &[0; 3]),
        zeros(96, &[0; 4]),
        zeros(240, &[1; MAX_OPTIONS - 1]),
        zeros(240, &[1; MAX_OPTIONS]),
        // E3 comes before the options.
        zeros(96, &[254, 1, 0]),
        // Payload does not complete an option.
        zeros(96, &[254, 5, 0, 0, 0]),
    ]
}

/// E4: without length octet, a length under 2, past the header.
fn broken() -> Vec<Vec<u8>> {
    vec![
        vec![1, 1, 1, 254],
        vec![1, 1, 254, 2],
        vec![254, 0, 0, 0],
        vec![254, 1, 0, 0],
        vec![254, 2, 0, 0],
        vec![254, 4, 0, 0],
        vec![254, 5, 0, 0],
        vec![3, 5, 0, 0],
        option(254, MAX_OPTIONS),
        // SACK of five blocks cannot be whole.
        option(5, 42)[..MAX_OPTIONS].to_vec(),
    ]
}

/// E5: both sides of a right length.
fn lengths() -> Vec<Vec<u8>> {
    let mss = [3, 4, 5].map(|length| option(2, length));
    let sack = [2, 9, 10, 11, 33, 34, 35].map(|length| option(5, length));
    [&mss[..], &sack].concat()
}

/// Any length of another kind, Echo and Echo Reply included, also twice.
fn unknown() -> Vec<Vec<u8>> {
    vec![
        option(6, 3),
        [option(6, 6), option(6, 6)].concat(),
        option(7, 7),
        option(9, 2),
        [option(254, 4), option(254, 4)].concat(),
    ]
}

/// E6: each known kind twice, one behind others, and all kinds once.
fn repeated() -> Vec<Vec<u8>> {
    let (mss, scale, permitted) = (option(2, 4), option(3, 3), option(4, 2));
    vec![
        [&mss[..], &mss].concat(),
        [&scale[..], &scale].concat(),
        [&permitted[..], &permitted].concat(),
        [SACK, SACK].concat(),
        [STAMPS, STAMPS].concat(),
        [&STAMPS[..], &[1], &SACK, &STAMPS].concat(),
        [&mss[..], &scale, &permitted, &SACK, &STAMPS].concat(),
    ]
}

/// E4, E5, E6 in this order at an option, the options from left to right, and none behind kind 0.
fn ordered() -> Vec<Vec<u8>> {
    vec![
        [&STAMPS[..], &[1, 8]].concat(),
        [&STAMPS[..], &[8, 1]].concat(),
        [&STAMPS[..], &[8, 11]].concat(),
        [&STAMPS[..], &option(8, 11)].concat(),
        [&STAMPS[..], &STAMPS, &option(2, 3), &[254]].concat(),
        [&option(2, 3), &STAMPS[..], &STAMPS].concat(),
        vec![0, 8, 1, 9],
        vec![1, 0, 8, 1],
        [&STAMPS[..], &[0], &STAMPS].concat(),
        vec![1; MAX_OPTIONS],
    ]
}

/// Both sides of the longest segment; E2 comes before E3, before the options, before E8 and before E10.
fn too_long(calls: &mut CallList) {
    calls.read(&fields::longest());
    let mut octets = zeros(79, &[]);
    octets.resize(MAX_SEGMENT + 1, 0);
    calls.add(&Call::Refusal { segment: &octets });
    octets[12] = 96;
    octets[20..22].copy_from_slice(&[254, 1]);
    // With steps that are not taken.
    calls.read(&octets);
    let segment = &[80; MAX_SEGMENT + 1];
    extended(calls);
    calls.arrive_octets(SET - 1, segment);
    let opening = own();
    calls.add(&Call::Open { opening, segment });
}

/// Two options of length 2 of every kind; of known kinds they are refused.
fn every_kind(calls: &mut CallList) {
    for kind in 2..=255 {
        calls.read(&zeros(96, &[kind, 2, kind, 2]));
    }
}
