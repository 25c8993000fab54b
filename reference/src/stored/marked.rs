//! The marked cases M1 to M12 as calls.

use crate::cases::{data, opening, syn, NEXT};
use crate::connection::Opening;
use crate::script::Call;
use crate::serial::{Seq, Stamp, HALF};

use super::calls::CallList;

const LARGEST_WINDOW: u32 = 1_073_725_440;

pub fn add(calls: &mut CallList) {
    m1_to_m3(calls);
    m4_and_m5(calls);
    m6_and_m7(calls);
    m8_and_m9(calls);
    m10(calls);
    m11_and_m12(calls);
}

fn m1_to_m3(calls: &mut CallList) {
    calls.distance(u32::MAX, 0);
    calls.distance(0, HALF);
    calls.distance(0, HALF - 1);
}

fn m4_and_m5(calls: &mut CallList) {
    calls.open_with_shift(14);
    calls.arrive(&data(NEXT, 0).window(65_535));
    calls.window(LARGEST_WINDOW + 1);
    calls.window(LARGEST_WINDOW);
    let scaled = Opening {
        shift: Some(14),
        ..opening()
    };
    calls.open(&scaled, &syn().scale(15));
    calls.arrive(&data(NEXT, 0).window(65_535));
}

fn m6_and_m7(calls: &mut CallList) {
    calls.read(&data(NEXT, 0).build());
    let past_the_header = data(NEXT, 0).options(&[8, 9, 0, 0]).build();
    calls.read(&past_the_header);
    calls.add(&Call::Refusal {
        segment: &past_the_header,
    });
}

fn m8_and_m9(calls: &mut CallList) {
    let stamped = Opening {
        timestamps: true,
        clock: 1,
        ..opening()
    };
    calls.open(&stamped, &syn().timestamps(Stamp(2), Stamp(0)));
    calls.acknowledge_at(1, 32);
    calls.open_with_sack();
    calls.arrive(&data(Seq(5_500), 3_500));
    calls.acknowledge(32);
}

fn m10(calls: &mut CallList) {
    calls.open_plain();
    for seq in [5_000, 6_000, 7_000, 8_000] {
        calls.arrive(&data(Seq(seq), 500));
    }
}

fn m11_and_m12(calls: &mut CallList) {
    calls.add(&Call::Timer);
    calls.sample(1_000);
    calls.sample(1_001);
}
