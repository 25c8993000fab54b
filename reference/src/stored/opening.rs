//! Openings: the offers of both sides, and the refusals E9 to E11.

use crate::builder::SegmentBuilder;
use crate::cases::{opening, syn, ISS, NEXT, UNA};
use crate::connection::Opening;
use crate::script::Call;
use crate::segment::{ACK, FIN, PSH, RST, SYN};
use crate::serial::{Seq, Stamp};

use super::calls::CallList;
use super::offering::open_with_octets;
use super::records::{bare_syn, full_syn, own, SET};

pub fn add(calls: &mut CallList) {
    own_offers(calls);
    ignored_octets(calls);
    flags(calls);
    opening_acks(calls);
    every_pair_of_offers(calls);
    peer_options(calls);
    clocks(calls);
    from_all_offers(calls);
    refused(calls);
}

fn own_offers(calls: &mut CallList) {
    for shift in [0, 14, 15, 255] {
        let opening = Opening {
            shift: Some(shift),
            ..opening()
        };
        calls.open(&opening, &syn().scale(2));
        // An own shift that the peer leaves unused is judged all the same.
        calls.open(&opening, &syn());
    }
    for window in [0, 65_535, 65_536, u32::MAX] {
        calls.open(
            &Opening {
                window,
                ..opening()
            },
            &syn(),
        );
    }
    // E9 comes before the segment is read.
    let refused = Opening {
        window: 65_536,
        ..opening()
    };
    calls.open(&refused, &syn().options(&[254, 1]));
}

/// The shift octet without its offer, and offer bits without a meaning.
fn ignored_octets(calls: &mut CallList) {
    for (shift, offers) in [(255, 0x03), (15, 0xfb), (3, 0xff)] {
        open_with_octets(calls, &opening(), shift, offers, SYN | ACK);
    }
}

fn flags(calls: &mut CallList) {
    for flags in [
        0,
        ACK,
        RST,
        SYN | RST,
        SYN | RST | ACK,
        SYN | FIN | PSH,
        0xfb,
    ] {
        calls.open(&opening(), &syn().flags(flags).payload(3));
    }
}

fn opening_acks(calls: &mut CallList) {
    for iss in [ISS, Seq(u32::MAX), Seq(u32::MAX - 1)] {
        let opening = Opening { iss, ..opening() };
        for ack in [iss, iss.plus(1), iss.plus(2), Seq(0)] {
            let syn = SegmentBuilder::new(NEXT.minus(1), ack, SYN | ACK);
            calls.open(&opening, &syn);
            // Without the flag the ACK field is not looked at.
            calls.open(&opening, &syn.flags(SYN));
        }
    }
    // E10 comes before E11.
    calls.open(&opening(), &SegmentBuilder::new(NEXT, UNA.plus(1), ACK));
}

/// Scaling, timestamps and SACK offered by us, by the peer, by both and by neither.
fn every_pair_of_offers(calls: &mut CallList) {
    for own in 0..8u8 {
        for peer in 0..8u8 {
            let opening = Opening {
                timestamps: own & 1 != 0,
                sack: own & 2 != 0,
                shift: (own & 4 != 0).then_some(7),
                ..opening()
            };
            calls.open(&opening, &peer_syn(peer));
        }
    }
}

fn peer_syn(offers: u8) -> SegmentBuilder {
    let mut syn = syn().mss(1_460).window(65_535);
    if offers & 1 != 0 {
        syn = syn.timestamps(Stamp(77), Stamp(0));
    }
    if offers & 2 != 0 {
        syn = syn.sack_permitted();
    }
    if offers & 4 != 0 {
        syn = syn.scale(9);
    }
    syn
}

fn peer_options(calls: &mut CallList) {
    let scaled = Opening {
        shift: Some(0),
        ..opening()
    };
    for shift in [0, 1, 13, 14, 15, 255] {
        calls.open(&scaled, &syn().scale(shift));
    }
    for mss in [0, 1, 535, 536, 65_535] {
        calls.open(&opening(), &syn().mss(mss));
    }
    for window in [0, 65_535] {
        calls.open(&opening(), &syn().window(window));
    }
    // RCV.NXT wraps.
    calls.open(&opening(), &SegmentBuilder::syn(Seq(u32::MAX)));
}

fn clocks(calls: &mut CallList) {
    for clock in [0, (1 << 32) - 1, 1 << 32, u64::MAX] {
        let opening = Opening {
            timestamps: true,
            offset: 5,
            clock,
            ..opening()
        };
        calls.open(&opening, &syn().timestamps(Stamp(u32::MAX), Stamp(0)));
        calls.acknowledge_at(clock, 32);
    }
}

/// Our side offers everything, or nothing with a window of 9; the peer offers everything, something or nothing.
fn from_all_offers(calls: &mut CallList) {
    let offered = [
        full_syn(4_999),
        // With ACK; payload and FIN on a SYN are not used.
        SegmentBuilder::new(Seq(4_999), Seq(1_001), SYN | ACK | FIN)
            .mss(1_460)
            .sack_permitted()
            .timestamps(Stamp(50), Stamp(0))
            .options(&[1])
            .scale(3)
            .payload(9),
        bare_syn(4_999),
        bare_syn(4_999).options(&[4, 2, 1, 1]),
        bare_syn(4_999)
            .mss(0)
            .options(&[1, 1])
            .timestamps(Stamp(0), Stamp(0)),
        // An ACK field without its flag.
        SegmentBuilder::new(Seq(4_999), Seq(77), SYN),
    ];
    for syn in &offered {
        calls.open(&own(), syn);
    }
    calls.open(&offering_nothing(1_000, 9), &full_syn(4_999));
    // ISS + 1 and SEQ + 1 wrap.
    let wrapped = SegmentBuilder::new(Seq(u32::MAX), Seq(0), SYN | ACK).window(5);
    calls.open(&offering_nothing(u32::MAX, 9), &wrapped);
}

fn offering_nothing(iss: u32, window: u32) -> Opening {
    Opening {
        iss: Seq(iss),
        window,
        offset: 7,
        clock: SET,
        ..opening()
    }
}

/// E9 before reading, reading before E10, E10 before E11.
fn refused(calls: &mut CallList) {
    let segment: &[u8] = &[];
    let too_large = Opening {
        shift: Some(15),
        ..offering_nothing(1_000, 9)
    };
    for opening in [too_large, offering_nothing(1_000, 65_536), own()] {
        calls.add(&Call::Open { opening, segment });
    }
    let opening = own();
    let segment: &[u8] = &[0; 20];
    calls.add(&Call::Open { opening, segment });
    for options in [[8, 9, 0, 0], [2, 3, 0, 0], [4, 2, 4, 2]] {
        let syn = bare_syn(4_999).flags(RST).window(0).options(&options);
        calls.open(&own(), &syn);
    }
    let segments = [
        (0, ACK),
        (0, SYN | RST),
        (77, SYN | RST | ACK),
        (1_000, SYN | ACK),
        (1_002, SYN | ACK),
    ];
    for (ack, flags) in segments {
        let syn = SegmentBuilder::new(Seq(4_999), Seq(ack), flags).window(0);
        calls.open(&own(), &syn);
    }
}
