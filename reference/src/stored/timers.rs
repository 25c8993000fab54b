//! The free-standing timer, the timer of a record, and milliseconds from S and V.

use crate::script::Call;
use crate::timer::MAX_SMOOTHED;

use super::calls::CallList;

pub fn add(calls: &mut CallList) {
    samples_at_the_limit(calls);
    expiries(calls);
    alternating(calls);
    record_expiries(calls);
    lists(calls);
    doublings(calls);
    milliseconds(calls);
}

fn samples_at_the_limit(calls: &mut CallList) {
    calls.add(&Call::Timer);
    for round_trip in [600_001, u32::MAX, 600_000, 600_001, 600_000, 0, 600_000] {
        calls.sample(round_trip);
    }
    for round_trip in [0, 1, 332, 333, 334, 999, 1_000] {
        calls.add(&Call::Timer);
        calls.sample(round_trip);
        calls.sample(round_trip);
    }
}

fn expiries(calls: &mut CallList) {
    calls.add(&Call::Timer);
    for _ in 0..7 {
        calls.add(&Call::Expiry);
    }
    calls.sample(1_000);
    for _ in 0..6 {
        calls.add(&Call::Expiry);
    }
    calls.sample(600_001);
    calls.sample(1_000);
}

/// S and V are rounded down at almost every step here.
fn alternating(calls: &mut CallList) {
    calls.add(&Call::Timer);
    for step in 0..40 {
        calls.sample(if step % 2 == 0 { 1_237 } else { 3 });
    }
    for _ in 0..40 {
        calls.sample(1);
    }
}

fn record_expiries(calls: &mut CallList) {
    calls.open_with_timestamps();
    for _ in 0..7 {
        calls.add(&Call::Expire);
    }
}

/// Short lists of samples on a new timer, each with an expiry at its end.
fn lists(calls: &mut CallList) {
    let lists: [&[u32]; 6] = [
        &[2_000],
        &[2_000, 2_003, 2_000, 2_001, 2_003],
        &[1_000, 0],
        &[0],
        &[600_000],
        &[600_001],
    ];
    for samples in lists {
        calls.add(&Call::Timer);
        for &round_trip in samples {
            calls.sample(round_trip);
        }
        calls.add(&Call::Expiry);
    }
}

/// Doubling from 24,999, 25,000, 29,999, 30,000 and 30,001 ms: up to 60,000 it is exact.
fn doublings(calls: &mut CallList) {
    let pairs = [
        (9_998, 9_998),
        (9_998, 9_999),
        (11_998, 11_998),
        (11_998, 11_999),
        (11_998, 12_000),
    ];
    for (first, second) in pairs {
        calls.add(&Call::Timer);
        calls.sample(first);
        calls.sample(second);
        calls.add(&Call::Expiry);
    }
}

fn milliseconds(calls: &mut CallList) {
    let limit = MAX_SMOOTHED;
    let pairs = [
        (0, 0),
        (limit, limit),
        (limit, 0),
        (0, limit),
        (limit + 1, 0),
        (0, limit + 1),
        (limit + 1, limit + 1),
        (1 << 32, 0),
        (0, 1 << 32),
        (u64::MAX, 0),
        (0, u64::MAX),
        (u64::MAX, u64::MAX),
        (u64::MAX - 255, 1 << 62),
        (256_000, 128_000),
        (256_032, 96_064),
        (512_096, 192_192),
        (511_113, 0),
        (511_114, 0),
    ];
    for (smoothed, variation) in pairs {
        add_milliseconds(calls, smoothed, variation);
    }
    // Whole milliseconds at the lower limit, in between, and at the upper limit.
    for whole in [1_000, 1_001, 30_000, 59_999, 60_000, 60_001] {
        let turn = 256 * whole - 256 - 887;
        for smoothed in [turn - 1, turn, turn + 1] {
            // 4V is below 256, at it and above it.
            for variation in [0, 64, 65] {
                add_milliseconds(calls, smoothed, variation);
            }
        }
    }
}

fn add_milliseconds(calls: &mut CallList, smoothed: u64, variation: u64) {
    calls.add(&Call::Milliseconds {
        smoothed,
        variation,
    });
}
