//! Random openings under the field-station profile: the offers of both sides lie near the profile's limits.

use crate::connection::{Opening, MAX_SHIFT};
use crate::profile::{LEAST_PEER_MSS, MAX_OFFERED_SHIFT};
use crate::random::Random;
use crate::script::Call;

use super::opening::PeerOffers;
use super::{Generator, LONG_PROFILE_SYN_RATE};

impl Generator {
    pub(super) fn add_open_under_profile(&mut self) {
        let opening = Opening {
            shift: offered_shift(&mut self.random),
            timestamps: self.random.percent(85),
            ..self.random_opening()
        };
        let offers = PeerOffers {
            mss: peer_mss(&mut self.random),
            shift: peer_shift(&mut self.random),
            timestamps: self.random.percent(85),
            ..PeerOffers::random(&mut self.random)
        };
        let segment = self.random_syn(&opening, &offers, LONG_PROFILE_SYN_RATE);
        let call = Call::OpenUnderProfile {
            opening,
            segment: &segment,
        };
        self.push_opening(&call, opening.clock);
    }
}

/// None, or one that is most often small enough for the profile.
fn offered_shift(random: &mut Random) -> Option<u8> {
    match random.below(20) {
        0..=5 => None,
        6..=8 => Some(random.below(u64::from(MAX_OFFERED_SHIFT) + 1) as u8),
        9..=14 => Some(MAX_OFFERED_SHIFT),
        15..=17 => Some(MAX_OFFERED_SHIFT + 1),
        18 => Some(MAX_SHIFT),
        _ => Some(random.below(u64::from(MAX_SHIFT) + 2) as u8),
    }
}

/// As ours, or one that counts as 14 where scaling is in force.
fn peer_shift(random: &mut Random) -> Option<u8> {
    match random.below(20) {
        0 => Some(random.next_u8()),
        1 => Some(MAX_SHIFT + 1),
        _ => offered_shift(random),
    }
}

fn peer_mss(random: &mut Random) -> Option<u16> {
    match random.below(20) {
        0..=5 => None,
        6..=8 => Some(LEAST_PEER_MSS - 1),
        9..=12 => Some(LEAST_PEER_MSS),
        13 => Some(LEAST_PEER_MSS + 1),
        14 => Some(random.pick(&[0, u16::MAX])),
        15 => Some(random.next_u16()),
        16 => Some(random.below(u64::from(LEAST_PEER_MSS)) as u16),
        _ => Some(1_460),
    }
}
