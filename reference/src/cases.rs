//! The opening that most worked cases share, in the stored script and in tests.

use crate::builder::SegmentBuilder;
use crate::connection::Opening;
use crate::segment::{ACK, SYN};
use crate::serial::{Seq, Stamp};

/// The clock at which the shared openings open.
pub const CLOCK: u64 = 10_000;
pub const ISS: Seq = Seq(1_000);
/// SND.UNA and SND.NXT after a shared opening.
pub const UNA: Seq = Seq(1_001);
/// RCV.NXT after a shared opening.
pub const NEXT: Seq = Seq(5_000);
/// TS.Recent after a shared opening with timestamps.
pub const RECENT: Stamp = Stamp(100);

/// Our side of a shared opening: nothing offered, the largest first window.
pub fn opening() -> Opening {
    Opening {
        iss: ISS,
        shift: None,
        timestamps: false,
        sack: false,
        window: 65_535,
        offset: 0,
        clock: CLOCK,
    }
}

/// The peer's SYN of a shared opening; it acknowledges ours and has no options.
pub fn syn() -> SegmentBuilder {
    SegmentBuilder::new(NEXT.minus(1), UNA, SYN | ACK)
}

/// A segment with ACK = SND.UNA.
pub fn data(seq: Seq, length: usize) -> SegmentBuilder {
    SegmentBuilder::data(seq, UNA, length)
}

/// A segment with ACK = SND.UNA and TSval = TS.Recent.
pub fn stamped(seq: Seq, length: usize) -> SegmentBuilder {
    data(seq, length).timestamps(RECENT, Stamp(0))
}
