//! The examples of RFC 2018: eight segments of 500 octets from 5000, some of them lost.

use crate::cases::data;
use crate::serial::Seq;

use super::calls::CallList;

const LENGTH: usize = 500;
/// Room for the longest acknowledgment.
const BUFFER: usize = 60;

pub fn add(calls: &mut CallList) {
    last_four_lost(calls);
    first_lost(calls);
    every_second_lost(calls);
}

fn last_four_lost(calls: &mut CallList) {
    calls.open_with_sack();
    arrive_each(calls, &[5_000, 5_500, 6_000, 6_500]);
}

fn first_lost(calls: &mut CallList) {
    calls.open_with_sack();
    arrive_each(calls, &[5_500, 6_000, 6_500, 7_000, 7_500, 8_000, 8_500]);
}

fn every_second_lost(calls: &mut CallList) {
    calls.open_with_sack();
    arrive_each(calls, &[5_000, 6_000, 7_000, 8_000]);
    // The fourth arrives after all, then the second.
    arrive_each(calls, &[6_500, 5_500]);
}

fn arrive_each(calls: &mut CallList, numbers: &[u32]) {
    for &seq in numbers {
        calls.arrive(&data(Seq(seq), LENGTH));
        calls.acknowledge(BUFFER);
    }
}
