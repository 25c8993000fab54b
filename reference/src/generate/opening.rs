//! Random openings and the peer's SYN.

use crate::builder::SegmentBuilder;
use crate::connection::{Opening, MAX_SHIFT, MAX_WINDOW_FIELD};
use crate::random::Random;
use crate::segment::{ACK, FIN, PSH, RST, SYN};
use crate::serial::{Seq, Stamp};

use super::arrival::longest_length;
use super::clock::opening_clock;
use super::edges::{beside, serial_near, serial_start};
use super::{damage, unknown, Generator};

/// What the peer's SYN offers.
pub struct PeerOffers {
    pub mss: Option<u16>,
    pub shift: Option<u8>,
    pub sack: bool,
    pub timestamps: bool,
}

impl PeerOffers {
    pub fn random(random: &mut Random) -> PeerOffers {
        PeerOffers {
            mss: random.percent(70).then(|| random_mss(random)),
            shift: random.percent(80).then(|| random_peer_shift(random)),
            sack: random.percent(80),
            timestamps: random.percent(85),
        }
    }
}

impl Generator {
    pub(super) fn random_opening(&mut self) -> Opening {
        let random = &mut self.random;
        let clock = opening_clock(random);
        Opening {
            iss: Seq(serial_start(random)),
            shift: random_shift(random),
            timestamps: random.percent(60),
            sack: random.percent(70),
            window: random_first_window(random),
            offset: random_offset(random, clock),
            clock,
        }
    }

    /// The peer's SYN with these offers; one in `long_rate` is about as long as a segment can be.
    pub(super) fn random_syn(
        &mut self,
        opening: &Opening,
        offers: &PeerOffers,
        long_rate: u64,
    ) -> Vec<u8> {
        let random = &mut self.random;
        let first = opening.iss.plus(1);
        let ack = if random.percent(85) {
            first
        } else {
            Seq(serial_near(random, first.0))
        };
        let mut syn = SegmentBuilder::new(Seq(serial_start(random)), ack, syn_flags(random))
            .window(random_window_field(random));
        if let Some(mss) = offers.mss {
            syn = syn.mss(mss);
        }
        if let Some(shift) = offers.shift {
            syn = syn.scale(shift);
        }
        if offers.sack {
            syn = syn.sack_permitted();
        }
        if offers.timestamps {
            syn = syn.timestamps(Stamp(serial_start(random)), Stamp(random.next_u32()));
        }
        if random.percent(5) {
            syn = syn.payload(random.index(20));
        }
        let mut octets = syn.build();
        if random.percent(25) {
            unknown::scatter(random, &mut octets);
        }
        if random.percent(12) {
            damage::damage(random, &mut octets);
        }
        if self.wants_long_body(long_rate) {
            octets.resize(longest_length(&mut self.random), 0);
        }
        octets
    }
}

/// A window field that is often 0 or the largest.
pub fn random_window_field(random: &mut Random) -> u16 {
    let any = random.next_u16();
    random.pick(&[0, 1, 200, 8_192, 65_534, 65_535, 65_535, any])
}

fn random_shift(random: &mut Random) -> Option<u8> {
    match random.below(20) {
        0..=4 => None,
        5 => Some(random.next_u8()),
        6..=8 => Some(0),
        9..=12 => Some(MAX_SHIFT),
        13 => Some(MAX_SHIFT + 1),
        _ => Some(random.below(u64::from(MAX_SHIFT) + 1) as u8),
    }
}

fn random_first_window(random: &mut Random) -> u32 {
    match random.below(20) {
        0 => 0,
        1 => random.next_u32(),
        2 => MAX_WINDOW_FIELD + 1,
        3 => beside(random, MAX_WINDOW_FIELD),
        4..=6 => MAX_WINDOW_FIELD,
        7 => random.below_u32(MAX_WINDOW_FIELD + 1),
        8 | 9 => 1 + random.below_u32(10),
        _ => 20 + random.below_u32(400),
    }
}

/// An offset that often makes our timestamp wrap soon.
fn random_offset(random: &mut Random, clock: u64) -> u32 {
    let near_wrap = 0u32
        .wrapping_sub(clock as u32)
        .wrapping_sub(random.below_u32(200));
    let any = random.next_u32();
    random.pick(&[0, u32::MAX, near_wrap, near_wrap, any])
}

fn random_mss(random: &mut Random) -> u16 {
    let any = random.next_u16();
    random.pick(&[0, 63, 64, 65, 536, 1_460, 1_460, u16::MAX, any])
}

fn random_peer_shift(random: &mut Random) -> u8 {
    let any = random.next_u8();
    random.pick(&[0, 1, 7, 13, 14, 14, 15, any])
}

fn syn_flags(random: &mut Random) -> u8 {
    match random.below(40) {
        0 => random.next_u8(),
        1 => SYN | RST,
        2 => ACK,
        3 => SYN | FIN | PSH,
        4..=19 => SYN,
        _ => SYN | ACK,
    }
}
