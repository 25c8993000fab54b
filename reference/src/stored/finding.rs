//! Finding an option by a list of kinds.

use crate::cases::{data, NEXT};
use crate::script::Call;
use crate::serial::Stamp;

use super::calls::CallList;
use super::refusing::zeros;

pub fn add(calls: &mut CallList) {
    let segment = data(NEXT, 4)
        .options(&[1, 254, 5, 7, 8, 9, 1, 253, 2])
        .mss(536)
        .timestamps(Stamp(1), Stamp(2))
        .options(&[254, 3, 6])
        .build();
    let lists: [&[u8]; 12] = [
        &[],
        &[0],
        &[1],
        &[0, 1],
        &[254],
        &[253],
        &[8, 253],
        &[253, 8],
        &[0, 1, 8],
        &[8, 2, 8],
        &[3, 4, 5],
        &[255, 0, 2],
    ];
    for kinds in lists {
        find(calls, kinds, &segment);
    }
    find(calls, &every_kind(), &segment);
    find(calls, &[8], &data(NEXT, 12).build());
    unreadable(calls);
    ended(calls);
    first_of_its_kind(calls);
    not_there(calls);
}

fn find(calls: &mut CallList, kinds: &[u8], segment: &[u8]) {
    calls.add(&Call::Find { kinds, segment });
}

fn every_kind() -> Vec<u8> {
    (1..=255).collect()
}

/// A fault behind the match, and segments that are no segments.
fn unreadable(calls: &mut CallList) {
    let fault_behind = data(NEXT, 0).mss(536).options(&[254, 1, 0, 0]);
    find(calls, &[2], &fault_behind.build());
    let repeated_behind = data(NEXT, 0).mss(536).mss(536);
    find(calls, &[2], &repeated_behind.build());
    find(calls, &[2], &data(NEXT, 0).mss(536).build()[..23]);
    find(calls, &[2], &[]);
}

/// Options behind kind 0 are not there.
fn ended(calls: &mut CallList) {
    let ended = data(NEXT, 0).options(&[254, 2, 0, 0]).mss(536);
    find(calls, &[2], &ended.build());
    find(calls, &[2, 254], &ended.build());
}

/// An unknown kind twice and window scale: the first of a kind, the segment's order, kinds 0 and 1, a kind that is not there.
fn first_of_its_kind(calls: &mut CallList) {
    let mixed = zeros(128, &[1, 254, 3, 9, 254, 2, 3, 3, 7, 0, 1, 1]);
    let lists: [&[u8]; 8] = [
        &[254],
        &[3],
        &[3, 254],
        &[8, 3],
        &[0, 1],
        &[0, 1, 3],
        &[8],
        &[],
    ];
    for kinds in lists {
        find(calls, kinds, &mixed);
    }
    find(calls, &[254], &zeros(96, &[254, 2, 254, 2]));
}

/// Behind kind 0, in the payload, and in segments with each refusal, behind the match too.
fn not_there(calls: &mut CallList) {
    let segments = [
        zeros(96, &[0, 254, 2, 0]),
        zeros(80, &[254, 2]),
        zeros(112, &[254, 2, 1, 1]),
        zeros(96, &[254, 2, 254, 3]),
        zeros(96, &[254, 2, 4, 1]),
        zeros(112, &[254, 2, 4, 3, 0, 0, 0, 0]),
        zeros(112, &[254, 2, 4, 2, 4, 2, 0, 0]),
    ];
    for segment in &segments {
        find(calls, &[254], segment);
    }
}
