//! Openings under the field-station profile: both sides of each demand, which of several is told, the base's refusals
//! before them, and the record that is opened or left.

use crate::builder::SegmentBuilder;
use crate::connection::Opening;
use crate::script::Call;
use crate::segment::{ACK, FIN, RST, SYN};
use crate::serial::{Seq, Stamp};

use super::calls::CallList;
use super::offering::{add_with_octets, everything};
use super::records::{own, sampled, segment, stamped, SET};
use super::skipped::UNKNOWN;

pub fn add(calls: &mut CallList) {
    every_mixture(calls);
    pairs_of_shifts(calls);
    single_shifts(calls);
    sizes(calls);
    flags(calls);
    among_other_options(calls);
    octets(calls);
    largest_numbers(calls);
    base_first(calls);
    left(calls);
    afterwards(calls);
    timer_by_itself(calls);
}

/// What our side and the peer offer, as far as the profile looks at it.
#[derive(Clone, Copy)]
struct Offers {
    stamps: [bool; 2],
    shifts: [Option<u8>; 2],
    mss: Option<u16>,
}

/// Every demand met, the last two at their limits.
const MET: Offers = Offers {
    stamps: [true, true],
    shifts: [Some(7), Some(7)],
    mss: Some(536),
};

/// No demand met.
const UNMET: Offers = Offers {
    stamps: [false, false],
    shifts: [Some(8), Some(8)],
    mss: Some(535),
};

/// One demand not met: timestamps by us or by the peer, the shift by us or by the peer, the MSS.
const ONE_UNMET: [Offers; 5] = [
    Offers {
        stamps: [false, true],
        ..MET
    },
    Offers {
        stamps: [true, false],
        ..MET
    },
    Offers {
        shifts: [Some(8), None],
        ..MET
    },
    Offers {
        shifts: [None, Some(8)],
        ..MET
    },
    Offers {
        mss: Some(535),
        ..MET
    },
];

impl Offers {
    fn opening(self) -> Opening {
        let ([shift, _], [timestamps, _]) = (self.shifts, self.stamps);
        Opening {
            shift,
            timestamps,
            ..own()
        }
    }

    fn syn(self) -> SegmentBuilder {
        self.add_to(peer_syn())
    }

    /// Adds the peer's offers.
    fn add_to(self, mut syn: SegmentBuilder) -> SegmentBuilder {
        let ([_, shift], [_, timestamps]) = (self.shifts, self.stamps);
        if let Some(mss) = self.mss {
            syn = syn.mss(mss);
        }
        if let Some(shift) = shift {
            syn = syn.scale(shift);
        }
        if timestamps {
            syn = syn.timestamps(Stamp(50), Stamp(0));
        }
        syn
    }

    fn open(self, calls: &mut CallList) {
        calls.open_under_profile(&self.opening(), &self.syn());
    }
}

/// A SYN without options; its ACK field would acknowledge ours, but the flag is not set.
fn peer_syn() -> SegmentBuilder {
    segment(8_999, 1_001, SYN)
}

/// Met, not met, and each single one not met.
fn met_and_unmet() -> impl Iterator<Item = Offers> {
    [MET, UNMET].into_iter().chain(ONE_UNMET)
}

/// Refused with 1, 1, 2, 2 and 3.
pub fn lacking(calls: &mut CallList) {
    for offers in ONE_UNMET {
        offers.open(calls);
    }
}

/// Each demand met, or not met by one side or by both, with each of the others.
fn every_mixture(calls: &mut CallList) {
    let sides = [[true, true], [false, true], [true, false], [false, false]];
    sampled(calls);
    for stamps in sides {
        for within in sides {
            for mss in [536, 535] {
                let offers = Offers {
                    stamps,
                    shifts: within.map(|within| Some(if within { 7 } else { 8 })),
                    mss: Some(mss),
                };
                offers.open(calls);
            }
        }
    }
}

/// Both sides offer a shift, the larger ones first.
fn pairs_of_shifts(calls: &mut CallList) {
    sampled(calls);
    for own in [14, 8, 7, 0] {
        for peer in [255, 15, 14, 8, 7, 0] {
            let shifts = [Some(own), Some(peer)];
            Offers { shifts, ..MET }.open(calls);
        }
    }
}

/// One side offers a shift, which is not in force and counts all the same, the larger ones first; or none does.
fn single_shifts(calls: &mut CallList) {
    let own = [14, 9, 8, 7, 6, 0].map(|own| [Some(own), None]);
    let peers = [255, 200, 128, 127, 16, 15, 14, 9, 8, 7, 6, 0].map(|peer| [None, Some(peer)]);
    for list in [&own[..], &peers, &[[None, None]]] {
        sampled(calls);
        for &shifts in list {
            let mss = None;
            Offers { shifts, mss, ..MET }.open(calls);
        }
    }
}

/// The peer's MSS, or none; neither octet of it decides alone.
fn sizes(calls: &mut CallList) {
    let sizes = [
        0, 24, 255, 512, 534, 535, 536, 537, 767, 768, 1_460, 32_768, 65_535,
    ];
    for mss in sizes.map(Some).into_iter().chain([None]) {
        Offers { mss, ..MET }.open(calls);
    }
}

/// A SYN that acknowledges ours is judged as one that does not; payload and FIN are not used.
fn flags(calls: &mut CallList) {
    for offers in met_and_unmet() {
        calls.open_under_profile(&offers.opening(), &offers.syn().flags(SYN | ACK));
    }
    let syn = MET.syn().flags(SYN | FIN).payload(3);
    calls.open_under_profile(&MET.opening(), &syn);
}

/// Unknown options, NOPs and SACK-permitted beside the offers; what a body holds or kind 0 hides is no offer.
fn among_other_options(calls: &mut CallList) {
    let offers = Offers {
        shifts: [Some(7), None],
        mss: None,
        ..MET
    };
    let behind: [&[u8]; 6] = [
        &UNKNOWN,
        &UNKNOWN.repeat(15),
        &[1, 4, 2, 253, 3, 0, 1, 254, 2],
        &[254, 5, 3, 3, 8],
        &[254, 6, 2, 4, 2, 23],
        &[0, 3, 3, 8, 2, 4, 2, 23],
    ];
    for options in behind {
        calls.open_under_profile(&offers.opening(), &offers.syn().options(options));
    }
    // Behind kind 0 nothing is offered, behind a NOP all is.
    for before in [0, 1] {
        let syn = MET.add_to(peer_syn().options(&[before]));
        calls.open_under_profile(&MET.opening(), &syn);
    }
    for offers in ONE_UNMET {
        let syn = offers.syn().options(&UNKNOWN.repeat(2));
        calls.open_under_profile(&offers.opening(), &syn);
    }
}

/// A shift octet with its offer and without it, timestamps not offered, and bits without a meaning.
fn octets(calls: &mut CallList) {
    let with_shift = [(7, 5), (8, 5), (15, 5), (7, 0xff), (8, 0xfd), (200, 0xfd)];
    let without_shift = [(8, 1), (15, 3), (200, 1), (255, 0xfb)];
    let without_stamps = [(0, 0), (0, 2), (0, 6), (8, 4), (200, 0xf8)];
    let call = Call::OpenUnderProfile {
        opening: own(),
        segment: &everything(SYN).build(),
    };
    for fields in [&with_shift[..], &without_shift, &without_stamps] {
        for &(shift, offers) in fields {
            add_with_octets(calls, &call, shift, offers);
        }
    }
}

/// Windows, clocks and numbers at their limits, with SACK offered by both sides or by the peer alone.
fn largest_numbers(calls: &mut CallList) {
    let largest = Opening {
        iss: Seq(u32::MAX),
        window: 0,
        offset: u32::MAX,
        clock: u64::MAX,
        ..MET.opening()
    };
    let least = Opening {
        iss: Seq(0),
        sack: false,
        offset: 0,
        clock: 0,
        ..MET.opening()
    };
    let stamps = [(u32::MAX, Seq(u32::MAX)), (0, Seq(0))];
    for (opening, (value, seq)) in [largest, least].iter().zip(stamps) {
        let syn = SegmentBuilder::new(seq, opening.iss.plus(1), SYN | ACK)
            .window(65_535)
            .mss(65_535)
            .scale(0)
            .sack_permitted()
            .timestamps(Stamp(value), Stamp(value));
        calls.open_under_profile(opening, &syn);
    }
}

/// The first window is past its limit: E9.
fn too_wide(opening: Opening) -> Opening {
    Opening {
        window: 65_536,
        ..opening
    }
}

/// The peer's ACK is not for this ISS: E11 where it has one.
fn other_iss(opening: Opening) -> Opening {
    Opening {
        iss: Seq(1_001),
        ..opening
    }
}

/// Each refusal of the base, in its order, whatever is lacking beside it.
fn base_first(calls: &mut CallList) {
    sampled(calls);
    for offers in met_and_unmet() {
        let (opening, syn) = (offers.opening(), offers.syn());
        calls.open_under_profile(&too_wide(opening), &syn);
        calls.open_under_profile(&opening, &syn.clone().options(&[254, 1]));
        calls.open_under_profile(&opening, &syn.clone().flags(SYN | RST));
        calls.open_under_profile(&other_iss(opening), &syn.flags(SYN | ACK));
    }
    for offers in [MET, UNMET] {
        let (opening, syn) = (offers.opening(), offers.syn());
        let too_large = Opening {
            shift: Some(15),
            ..opening
        };
        calls.open_under_profile(&too_large, &syn);
        let octets = syn.build();
        for segment in [&octets[..19], &octets[..octets.len() - 1]] {
            calls.add(&Call::OpenUnderProfile { opening, segment });
        }
        for fault in [[5, 2, 0, 0], [4, 2, 4, 2]] {
            calls.open_under_profile(&opening, &syn.clone().options(&fault));
        }
        calls.open_under_profile(&opening, &syn.flags(ACK));
    }
    in_its_order(calls);
}

/// Two refusals of the base beside all that is lacking: E9 and E1, E4 and E10, E10 and E11.
fn in_its_order(calls: &mut CallList) {
    let (opening, syn) = (UNMET.opening(), UNMET.syn());
    calls.add(&Call::OpenUnderProfile {
        opening: too_wide(opening),
        segment: &[],
    });
    calls.open_under_profile(&opening, &syn.clone().flags(RST).options(&[254, 1]));
    calls.open_under_profile(&other_iss(opening), &syn.flags(SYN | RST | ACK));
}

/// What is refused leaves the record, and the base still opens what the profile does not.
fn left(calls: &mut CallList) {
    sampled(calls);
    lacking(calls);
    UNMET.open(calls);
    calls.arrive_at(SET, &stamped(5_000, 1_002, 50, 7));
    calls.acknowledge_at(SET, 32);
    calls.open(&UNMET.opening(), &UNMET.syn());
}

/// A record that the profile opened goes on as any: samples with N, a range held, 21, an acknowledgment, an expiry, E13.
fn afterwards(calls: &mut CallList) {
    for mss in [None, Some(1_460)] {
        let syn = Offers { mss, ..MET }.syn().sack_permitted().window(8_192);
        calls.open_under_profile(&MET.opening(), &syn);
        calls.sent(8_191);
        for ack in [1_001, 1_002] {
            // Our timestamp is 107.
            calls.arrive_at(SET, &stamped(9_000, ack, 50, 7));
        }
        calls.arrive_at(SET + 1, &stamped(9_100, 1_002, 51, 0).payload(10));
        calls.arrive_at(SET + 1, &segment(9_000, 1_002, ACK));
        calls.acknowledge_at(SET + 1, 44);
        calls.add(&Call::Expire);
        for window in [(65_535 << 7) + 1, 65_535 << 7] {
            calls.window(window);
        }
    }
}

/// The timer that stands by itself is not new again.
fn timer_by_itself(calls: &mut CallList) {
    calls.add(&Call::Timer);
    calls.sample(1_000);
    MET.open(calls);
    UNMET.open(calls);
    calls.sample(1_001);
}

#[cfg(test)]
mod tests {
    use super::*;
    use crate::connection::Connection;
    use crate::play::Player;
    use crate::script::Calls;

    /// The number of each opening under the profile; with a lack, ten times the number, and the lack added.
    fn numbers(cases: fn(&mut CallList)) -> Vec<u8> {
        let answers = CallList::answers(cases, "profile");
        answers.iter().map(|line| number(line)).collect()
    }

    fn number(line: &str) -> u8 {
        let words: Vec<&str> = line.split(' ').collect();
        let number: u8 = words[1].parse().unwrap();
        match words[2].parse::<u8>() {
            Ok(lack) => 10 * number + lack,
            Err(_) => number,
        }
    }

    #[test]
    fn mixtures() {
        let of_shifts = [0, 173, 172, 172, 172, 172, 172, 172];
        let expected = [of_shifts.to_vec(), [171; 24].to_vec()].concat();
        assert_eq!(numbers(every_mixture), expected);
        assert_eq!(numbers(lacking), [171, 171, 172, 172, 173]);
        let expected = [0, 171, 171, 171, 172, 172, 173, 0];
        assert_eq!(numbers(flags), expected);
    }

    #[test]
    fn shifts() {
        let at_most_7 = [172, 172, 172, 172, 0, 0];
        let expected = [[172; 12].to_vec(), at_most_7.repeat(2)].concat();
        assert_eq!(numbers(pairs_of_shifts), expected);
        let expected = [(172, 3), (0, 3), (172, 9), (0, 4)];
        let expected = expected.map(|(number, count)| vec![number; count]);
        assert_eq!(numbers(single_shifts), expected.concat());
    }

    #[test]
    fn limits_of_the_mss() {
        let expected = [vec![173; 6], vec![0; 8]].concat();
        assert_eq!(numbers(sizes), expected);
    }

    #[test]
    fn other_options_and_octets() {
        let expected = [0, 0, 0, 0, 0, 0, 171, 0, 171, 171, 172, 172, 173];
        assert_eq!(numbers(among_other_options), expected);
        let expected = [vec![0, 172, 9, 0, 172, 9], vec![0; 4], vec![171; 5]];
        assert_eq!(numbers(octets), expected.concat());
        assert_eq!(numbers(largest_numbers), [0, 0]);
    }

    #[test]
    fn order() {
        let beside_each = [9, 4, 10, 11].repeat(7);
        let beside_all_or_none = [9, 1, 3, 5, 6, 10].repeat(2);
        let expected = [beside_each, beside_all_or_none, vec![9, 4, 10]].concat();
        assert_eq!(numbers(base_first), expected);
    }

    #[test]
    fn a_record_that_was_written_in_spite_of_17_would_show() {
        let mut calls = CallList::default();
        add(&mut calls);
        let script = calls.into_script();
        let mut player = Player::default();
        for call in Calls::new(&script) {
            let call = call.unwrap();
            let mut lines = String::new();
            player.play(&call, &mut lines);
            if let Call::OpenUnderProfile { opening, segment } = call {
                if lines.starts_with("profile 17") {
                    let by_base = Connection::open(&opening, segment).unwrap();
                    assert_ne!(player.connection(), Some(&by_base.connection));
                }
            }
        }
    }
}
