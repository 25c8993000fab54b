//! The field-station profile: an opening that demands more than the base, and opens the record that the base opens.

use crate::connection::{Connection, Opened, Opening};
use crate::options::Options;
use crate::refusal::{Lack, Refusal};
use crate::segment::Segment;

/// The largest shift that a side may offer.
pub const MAX_OFFERED_SHIFT: u8 = 7;
/// The least MSS that the peer may have.
pub const LEAST_PEER_MSS: u16 = 536;

/// Opens a record as the base does, unless one of the profile's demands is not met.
pub fn open(opening: &Opening, octets: &[u8]) -> Result<Opened, Refusal> {
    let opened = Connection::open(opening, octets)?;
    // The record keeps what is in force; the profile judges the offers as they were written.
    let syn = Segment::read(octets).result?;
    check_demands(opening, &syn.options, opened.connection.mss).map_err(Refusal::Profile)?;
    Ok(opened)
}

/// The first demand that is not met decides. The MSS is the peer's with the default applied.
fn check_demands(opening: &Opening, peer: &Options, peer_mss: u16) -> Result<(), Lack> {
    if !opening.timestamps || peer.timestamps.is_none() {
        Err(Lack::Timestamps)
    } else if exceeds_shift(opening.shift) || exceeds_shift(peer.scale) {
        Err(Lack::Shift)
    } else if peer_mss < LEAST_PEER_MSS {
        Err(Lack::Mss)
    } else {
        Ok(())
    }
}

/// An offered shift counts by itself, in force or not.
fn exceeds_shift(offered: Option<u8>) -> bool {
    offered.map_or(false, |shift| shift > MAX_OFFERED_SHIFT)
}

#[cfg(test)]
mod tests {
    use super::*;
    use crate::builder::SegmentBuilder;
    use crate::cases::{self, ISS, NEXT, RECENT, UNA};
    use crate::connection::MAX_SHIFT;
    use crate::refusal::Place;
    use crate::segment::{ACK, FIN, MAX_SEGMENT, RST, SYN};
    use crate::serial::Stamp;

    /// Our side with timestamps offered.
    fn opening() -> Opening {
        Opening {
            timestamps: true,
            ..cases::opening()
        }
    }

    fn with_shift(shift: u8) -> Opening {
        Opening {
            shift: Some(shift),
            ..opening()
        }
    }

    /// The peer's SYN with timestamps.
    fn syn() -> SegmentBuilder {
        cases::syn().timestamps(RECENT, Stamp(0))
    }

    /// What is lacking; where nothing is, the record and the count are the base's.
    fn lack(opening: &Opening, syn: &SegmentBuilder) -> Option<Lack> {
        let octets = syn.build();
        let by_base = Connection::open(opening, &octets);
        assert!(by_base.is_ok());
        match open(opening, &octets) {
            Err(Refusal::Profile(lack)) => Some(lack),
            by_profile => {
                assert_eq!(by_profile, by_base);
                None
            }
        }
    }

    #[test]
    fn timestamps_are_demanded_of_both_sides() {
        let none = Some(Lack::Timestamps);
        assert_eq!(lack(&opening(), &syn()), None);
        assert_eq!(lack(&cases::opening(), &syn()), none);
        assert_eq!(lack(&opening(), &cases::syn()), none);
        assert_eq!(lack(&cases::opening(), &cases::syn()), none);
        // Stamps of 0 are there all the same, and what stands behind kind 0 is not.
        let zeros = cases::syn().timestamps(Stamp(0), Stamp(0));
        assert_eq!(lack(&opening(), &zeros), None);
        let behind_the_end = cases::syn().options(&[0]).timestamps(RECENT, Stamp(0));
        assert_eq!(lack(&opening(), &behind_the_end), none);
    }

    #[test]
    fn offered_shifts_reach_up_to_7_in_force_or_not() {
        let own = || (0..=MAX_SHIFT).map(Some).chain([None]);
        let peer = || (0..=u8::MAX).map(Some).chain([None]);
        for (own, peer) in own().flat_map(|own| peer().map(move |peer| (own, peer))) {
            let opening = Opening {
                shift: own,
                ..opening()
            };
            let syn = peer.map_or(syn(), |shift| syn().scale(shift));
            let too_large = own >= Some(8) || peer >= Some(8);
            let expected = too_large.then_some(Lack::Shift);
            assert_eq!(lack(&opening, &syn), expected, "{:?} {:?}", own, peer);
        }
    }

    #[test]
    fn the_peers_mss_reaches_down_to_536_and_none_is_536() {
        let with_mss = |mss| lack(&opening(), &syn().mss(mss));
        assert_eq!(lack(&opening(), &syn()), None);
        for mss in [536, 537, 1_460, u16::MAX] {
            assert_eq!(with_mss(mss), None, "{}", mss);
        }
        for mss in [0, 1, 64, 534, 535] {
            assert_eq!(with_mss(mss), Some(Lack::Mss), "{}", mss);
        }
    }

    #[test]
    fn the_first_of_several_is_told() {
        let own_sides = [
            (opening(), [false, false]),
            (with_shift(8), [false, true]),
            (cases::opening(), [true, false]),
            (
                Opening {
                    timestamps: false,
                    ..with_shift(8)
                },
                [true, true],
            ),
        ];
        let peers = [
            (syn(), [false, false, false]),
            (syn().mss(535), [false, false, true]),
            (syn().scale(8), [false, true, false]),
            (syn().scale(8).mss(535), [false, true, true]),
            (cases::syn(), [true, false, false]),
            (cases::syn().mss(535), [true, false, true]),
            (cases::syn().scale(8), [true, true, false]),
            (cases::syn().scale(8).mss(535), [true, true, true]),
        ];
        for (own, [no_stamps, large_shift]) in &own_sides {
            for (peer, unmet) in &peers {
                let unmet = [
                    (no_stamps | unmet[0], Lack::Timestamps),
                    (large_shift | unmet[1], Lack::Shift),
                    (unmet[2], Lack::Mss),
                ];
                let first = unmet.iter().find(|(unmet, _)| *unmet);
                assert_eq!(lack(own, peer), first.map(|&(_, lack)| lack));
            }
        }
    }

    #[test]
    fn the_number_is_17_with_a_lack_and_no_place() {
        for (lack, number) in [(Lack::Timestamps, 1), (Lack::Shift, 2), (Lack::Mss, 3)] {
            let refusal = Refusal::Profile(lack);
            assert_eq!((refusal.number(), lack.number()), (17, number));
            assert_eq!((refusal.lack(), refusal.place()), (Some(lack), None));
        }
        assert_eq!(Refusal::OwnOffer.lack(), None);
        assert_eq!(Refusal::OptionLength(Place(20)).lack(), None);
    }

    /// Offers that meet every demand, and such that meet none.
    fn both_ways() -> [(Opening, SegmentBuilder); 2] {
        let without = Opening {
            shift: Some(MAX_SHIFT),
            ..cases::opening()
        };
        [(opening(), syn()), (without, cases::syn().scale(15).mss(0))]
    }

    #[test]
    fn refusals_of_the_base_come_first() {
        for (own, peer) in both_ways() {
            let refused = |own: &Opening, octets: &[u8]| {
                let refusal = open(own, octets).unwrap_err();
                assert_eq!(Connection::open(own, octets), Err(refusal));
                refusal.number()
            };
            let number = |own: &Opening, peer: &SegmentBuilder| refused(own, &peer.build());
            let too_wide = Opening {
                window: 65_536,
                ..own
            };
            let too_large = Opening {
                shift: Some(MAX_SHIFT + 1),
                ..own
            };
            for own in [too_wide, too_large] {
                assert_eq!(number(&own, &peer), 9);
                // E9 also comes before reading.
                assert_eq!(refused(&own, &[]), 9);
            }
            let octets = peer.build();
            assert_eq!(refused(&own, &octets[..19]), 1);
            assert_eq!(refused(&own, &octets[..octets.len() - 1]), 3);
            let too_long = [&octets[..], &[0; MAX_SEGMENT]].concat();
            assert_eq!(refused(&own, &too_long[..MAX_SEGMENT + 1]), 2);
            for (options, expected) in [([99, 1, 0, 0], 4), ([4, 3, 0, 0], 5), ([4, 2, 4, 2], 6)] {
                let faulty = peer.clone().options(&options);
                assert_eq!(number(&own, &faulty), expected);
                // Reading comes before E10.
                assert_eq!(number(&own, &faulty.flags(RST)), expected);
            }
            for flags in [0, ACK, RST, SYN | RST, SYN | RST | ACK] {
                assert_eq!(number(&own, &peer.clone().flags(flags)), 10);
            }
            let other_iss = |iss| Opening { iss, ..own };
            for iss in [ISS.minus(1), ISS.plus(1), UNA] {
                assert_eq!(number(&other_iss(iss), &peer), 11);
            }
        }
    }

    #[test]
    fn what_is_opened_is_the_record_of_the_base() {
        let opening = Opening {
            sack: true,
            window: 9,
            offset: 77,
            clock: u64::MAX,
            ..with_shift(7)
        };
        let peer = syn().scale(6).mss(1_460).sack_permitted();
        let peers = [
            peer.clone(),
            peer.clone().flags(SYN),
            peer.clone().flags(SYN | FIN).payload(9).window(0),
            peer.options(&[254, 2, 253, 3, 0]),
        ];
        for peer in &peers {
            assert_eq!(lack(&opening, peer), None);
        }
        let opened = open(&opening, &peers[3].build()).unwrap();
        let connection = opened.connection;
        assert_eq!((connection.rcv_nxt, opened.skipped), (NEXT, 2));
        assert_eq!((connection.rcv_shift, connection.snd_shift), (7, 6));
        assert_eq!((connection.mss, connection.ts_recent), (1_460, RECENT));
    }
}
