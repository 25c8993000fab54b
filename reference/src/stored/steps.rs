//! The steps of the option reading: each number of them, up to kind 0, the header's end or a fault, whatever stands behind.

use std::iter;

use crate::builder::MAX_OPTIONS;
use crate::cases::{data, NEXT};
use crate::options::{END, MSS, NOP, SACK_PERMITTED};

use super::calls::CallList;
use super::reading::with_options;
use super::skipped::UNKNOWN;

/// The shortest known option.
const PERMITTED: [u8; 2] = [SACK_PERMITTED, 2];

pub fn add(calls: &mut CallList) {
    for before in leading() {
        // Payload whose octets would be steps follows the header's end.
        calls.read(&data(NEXT, 8).options(&before).build());
        if before.len() < MAX_OPTIONS {
            for options in behind(&before) {
                calls.read(&with_options(&options));
            }
        }
    }
    for count in 1..MAX_OPTIONS / UNKNOWN.len() {
        add_with_nops(calls, &UNKNOWN.repeat(count));
    }
    // A last octet that has no length octet, behind the most options.
    let most = UNKNOWN.repeat(MAX_OPTIONS / UNKNOWN.len() - 1);
    calls.read(&with_options(&[&most[..], &[NOP, MSS]].concat()));
}

/// Whole steps of any number: none, NOPs, options, and both in turn.
fn leading() -> impl Iterator<Item = Vec<u8>> {
    let both = [&[NOP][..], &UNKNOWN].concat();
    let repeated = [vec![NOP], UNKNOWN.to_vec(), both]
        .into_iter()
        .flat_map(|part| (1..=MAX_OPTIONS / part.len()).map(move |count| part.repeat(count)));
    iter::once(vec![]).chain(repeated)
}

/// Lists that go on behind these steps up to the end of the longest header, where an option may be cut.
fn behind(before: &[u8]) -> Vec<Vec<u8>> {
    let ended = [before, &[END]].concat();
    // Steps, options and a fault that are not looked at.
    let mut lists = [[NOP; 2], UNKNOWN, [MSS; 2]]
        .map(|rest| filled(&ended, rest))
        .to_vec();
    let past = (MAX_OPTIONS - before.len()) as u8 + 1;
    // E4, E5 and E6, and a further fault.
    for fault in [[254, 0], [254, 1], [254, past], [MSS, 2]] {
        lists.push(filled(&[before, &fault].concat(), [MSS; 2]));
    }
    let second = [&PERMITTED, before, &PERMITTED].concat();
    if second.len() <= MAX_OPTIONS {
        lists.push(filled(&second, [MSS; 2]));
    }
    // With room for one octet, many are the same.
    lists.dedup();
    lists
}

/// The options of the longest header, filled up with these octets in turn or cut.
fn filled(options: &[u8], rest: [u8; 2]) -> Vec<u8> {
    let endless = options.iter().chain(rest.iter().cycle());
    endless.copied().take(MAX_OPTIONS).collect()
}

/// With NOPs up to the header's end, and with NOPs from its start.
fn add_with_nops(calls: &mut CallList, options: &[u8]) {
    let nops = vec![NOP; MAX_OPTIONS - options.len()];
    calls.read(&with_options(&[options, &nops].concat()));
    calls.read(&with_options(&[&nops, options].concat()));
}
