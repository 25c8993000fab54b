//! Offers: what is in force by the offers of both sides, the limits of E9, and the octets that bring our offers.

use crate::builder::SegmentBuilder;
use crate::cases::{opening, syn};
use crate::connection::Opening;
use crate::script::Call;
use crate::segment::SYN;
use crate::serial::{Seq, Stamp};

use super::calls::CallList;

pub fn add(calls: &mut CallList) {
    in_force(calls);
    limits(calls);
    octets(calls);
}

/// What one side offers: a shift, timestamps, SACK.
type Offers = (Option<u8>, bool, bool);

const NOTHING: Offers = (None, false, false);
const BOTH: Offers = (None, true, true);

fn with_offers((shift, timestamps, sack): Offers) -> Opening {
    Opening {
        shift,
        timestamps,
        sack,
        ..opening()
    }
}

fn shift(shift: u8) -> Offers {
    (Some(shift), false, false)
}

fn in_force(calls: &mut CallList) {
    let pairs = [
        // The peer's shift on both sides of 14, and the greatest octet.
        (shift(14), shift(13)),
        (shift(0), shift(14)),
        ((Some(3), true, true), (Some(15), true, true)),
        (shift(2), shift(255)),
        // Scaling offered by one side alone, or by none; a shift of 0 is an offer.
        (shift(7), NOTHING),
        (NOTHING, shift(3)),
        (NOTHING, NOTHING),
        (shift(5), shift(0)),
        // Timestamps and SACK offered by both sides, or by one.
        (BOTH, (None, true, false)),
        (BOTH, (None, false, true)),
        ((None, true, false), BOTH),
        ((None, false, true), BOTH),
        ((Some(1), true, true), (Some(9), true, true)),
    ];
    for (own, (shift, timestamps, sack)) in pairs {
        let mut syn = syn();
        if let Some(shift) = shift {
            syn = syn.scale(shift);
        }
        if timestamps {
            syn = syn.timestamps(Stamp(77), Stamp(0));
        }
        if sack {
            syn = syn.sack_permitted();
        }
        calls.open(&with_offers(own), &syn);
    }
}

/// Both sides of E9's limits, with and without other offers.
fn limits(calls: &mut CallList) {
    let limits = [
        ((Some(14), true, true), 65_535),
        ((Some(15), true, true), 65_535),
        (shift(255), 0),
        (shift(0), 65_536),
        (shift(14), 0),
        (BOTH, 65_535),
        (NOTHING, 65_536),
        (NOTHING, u32::MAX),
    ];
    for (own, window) in limits {
        let opening = Opening {
            window,
            ..with_offers(own)
        };
        calls.open(&opening, &syn());
    }
}

/// Each bit alone, bits without a meaning, a shift without its bit, and the largest and smallest numbers.
fn octets(calls: &mut CallList) {
    let fields = [
        (258, 14, 7, 65_535, 9),
        (1, 3, 1, 0, 0),
        (1, 3, 2, 0, 0),
        (1, 3, 4, 0, 0),
        (1, 3, 248, 0, 0),
        (u32::MAX, 255, 255, 16_777_216, 0),
        (0, 0, 0, 0, 0),
    ];
    for (iss, shift, offers, window, offset) in fields {
        let opening = Opening {
            iss: Seq(iss),
            window,
            offset,
            ..opening()
        };
        open_with_octets(calls, &opening, shift, offers, SYN);
    }
}

/// Opens with a shift octet and an offers octet as they are, and a SYN with these flags that offers everything.
pub fn open_with_octets(calls: &mut CallList, opening: &Opening, shift: u8, offers: u8, flags: u8) {
    let call = Call::Open {
        opening: *opening,
        segment: &everything(flags).build(),
    };
    add_with_octets(calls, &call, shift, offers);
}

/// The peer's SYN with these flags and every offer.
pub fn everything(flags: u8) -> SegmentBuilder {
    syn()
        .flags(flags)
        .scale(5)
        .sack_permitted()
        .timestamps(Stamp(3), Stamp(0))
}

/// Adds an opening with a shift octet and an offers octet as they are.
pub fn add_with_octets(calls: &mut CallList, opening: &Call, shift: u8, offers: u8) {
    let mut script = Vec::new();
    opening.encode(&mut script);
    script[9] = shift;
    script[10] = offers;
    calls.add_encoded(&script);
}
