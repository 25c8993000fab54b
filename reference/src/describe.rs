//! Calls as readable text.

use std::fmt::{self, Display};

use crate::connection::Opening;
use crate::play::Hex;
use crate::refusal::Refusal;
use crate::script::Call;
use crate::segment::Segment;

/// The names of the flags from bit 7 down.
const FLAG_NAMES: [&str; 8] = ["CWR", "ECE", "URG", "ACK", "PSH", "RST", "SYN", "FIN"];

/// A call in words; its octets follow in hexadecimal, at most `octets_shown` of them.
pub struct Readable<'a> {
    pub call: &'a Call<'a>,
    pub octets_shown: usize,
}

impl Readable<'_> {
    fn octets(&self, f: &mut fmt::Formatter, octets: &[u8]) -> fmt::Result {
        let shown = octets.len().min(self.octets_shown);
        write!(f, "{} octets {}", octets.len(), Hex(&octets[..shown]))?;
        if shown < octets.len() {
            f.write_str("...")?;
        }
        Ok(())
    }

    fn segment(&self, f: &mut fmt::Formatter, octets: &[u8]) -> fmt::Result {
        write!(f, "segment ({}) ", SegmentWords(octets))?;
        self.octets(f, octets)
    }
}

impl Display for Readable<'_> {
    fn fmt(&self, f: &mut fmt::Formatter) -> fmt::Result {
        match *self.call {
            Call::Read { segment } => {
                f.write_str("read ")?;
                self.segment(f, segment)
            }
            Call::Find { kinds, segment } => {
                write!(f, "find kinds {:?} ", kinds)?;
                self.segment(f, segment)
            }
            Call::Distance { a, b } => write!(f, "distance from {} to {}", a, b),
            Call::Open { opening, segment } => {
                write!(f, "open {} ", OpeningWords(&opening))?;
                self.segment(f, segment)
            }
            Call::Arrive { clock, segment } => {
                write!(f, "arrive clock {} ", clock)?;
                self.segment(f, segment)
            }
            Call::Sent { count } => write!(f, "sent {}", count),
            Call::Window { window } => write!(f, "window {}", window),
            Call::Acknowledge {
                source,
                destination,
                clock,
                buffer,
            } => {
                write!(
                    f,
                    "acknowledge ports {} {} clock {} buffer ",
                    source, destination, clock
                )?;
                self.octets(f, buffer)
            }
            Call::Expire => f.write_str("expire"),
            Call::Timer => f.write_str("timer"),
            Call::Sample(sample) => {
                write!(f, "sample {} N {}", sample.round_trip, sample.expected)
            }
            Call::Expiry => f.write_str("expiry"),
            Call::Refusal { segment } => {
                f.write_str("refusal ")?;
                self.segment(f, segment)
            }
            Call::DistanceFromC { a, b } => write!(f, "distance by C entry from {} to {}", a, b),
            Call::Milliseconds {
                smoothed,
                variation,
            } => write!(f, "milliseconds S {} V {}", smoothed, variation),
            Call::OpenUnderProfile { opening, segment } => {
                write!(f, "open under the profile {} ", OpeningWords(&opening))?;
                self.segment(f, segment)
            }
        }
    }
}

struct OpeningWords<'a>(&'a Opening);

impl Display for OpeningWords<'_> {
    fn fmt(&self, f: &mut fmt::Formatter) -> fmt::Result {
        let opening = self.0;
        write!(f, "ISS {}", opening.iss.0)?;
        match opening.shift {
            Some(shift) => write!(f, " shift {}", shift)?,
            None => f.write_str(" no shift")?,
        }
        write!(
            f,
            " timestamps {} SACK {} window {} offset {} clock {}",
            opening.timestamps, opening.sack, opening.window, opening.offset, opening.clock,
        )
    }
}

/// The fields of a segment, or why it cannot be read.
struct SegmentWords<'a>(&'a [u8]);

impl Display for SegmentWords<'_> {
    fn fmt(&self, f: &mut fmt::Formatter) -> fmt::Result {
        let segment = match Segment::read(self.0).result {
            Ok(segment) => segment,
            Err(refusal) => return write_refusal(f, refusal),
        };
        write!(f, "SEQ {} ACK {} flags ", segment.seq.0, segment.ack.0)?;
        write_flags(f, segment.flags.0)?;
        write!(
            f,
            " window {} payload {}",
            segment.window,
            segment.payload.len()
        )?;
        if let Some(mss) = segment.options.mss {
            write!(f, " MSS {}", mss)?;
        }
        if let Some(shift) = segment.options.scale {
            write!(f, " scale {}", shift)?;
        }
        if segment.options.sack_permitted {
            f.write_str(" SACK-permitted")?;
        }
        if let Some(stamps) = segment.options.timestamps {
            write!(f, " TSval {} TSecr {}", stamps.value.0, stamps.echo.0)?;
        }
        for block in segment.options.sack.iter() {
            write!(f, " SACK {}-{}", block.left.0, block.right.0)?;
        }
        match segment.options.skipped {
            0 => Ok(()),
            skipped => write!(f, " skipped {}", skipped),
        }
    }
}

fn write_refusal(f: &mut fmt::Formatter, refusal: Refusal) -> fmt::Result {
    write!(f, "unreadable, E{}", refusal.number())?;
    match refusal.place() {
        Some(place) => write!(f, " at {}", place.0),
        None => Ok(()),
    }
}

fn write_flags(f: &mut fmt::Formatter, flags: u8) -> fmt::Result {
    let names: Vec<&str> = FLAG_NAMES
        .iter()
        .enumerate()
        .filter(|(at, _)| flags & (0x80 >> at) != 0)
        .map(|(_, &name)| name)
        .collect();
    f.write_str(if names.is_empty() { "none" } else { "" })?;
    f.write_str(&names.join("|"))
}

#[cfg(test)]
mod tests {
    use super::*;
    use crate::builder::SegmentBuilder;
    use crate::cases::opening;
    use crate::segment::{ACK, FIN};
    use crate::serial::{Seq, Stamp};

    #[test]
    fn an_arrival_in_words() {
        let segment = SegmentBuilder::new(Seq(5), Seq(6), ACK | FIN)
            .timestamps(Stamp(7), Stamp(8))
            .options(&[254, 2])
            .build();
        let call = Call::Arrive {
            clock: 9,
            segment: &segment,
        };
        let readable = Readable {
            call: &call,
            octets_shown: 2,
        };
        assert_eq!(
            readable.to_string(),
            "arrive clock 9 segment (SEQ 5 ACK 6 flags ACK|FIN window 8192 payload 0 \
             TSval 7 TSecr 8 skipped 1) 32 octets 3039..."
        );
    }

    #[test]
    fn an_opening_under_the_profile_in_words() {
        let call = Call::OpenUnderProfile {
            opening: opening(),
            segment: &[1],
        };
        let readable = Readable {
            call: &call,
            octets_shown: 10,
        };
        assert_eq!(
            readable.to_string(),
            "open under the profile ISS 1000 no shift timestamps false SACK false window 65535 \
             offset 0 clock 10000 segment (unreadable, E1) 1 octets 01"
        );
    }

    #[test]
    fn an_unreadable_segment_in_words() {
        let call = Call::Read { segment: &[1] };
        let readable = Readable {
            call: &call,
            octets_shown: 10,
        };
        assert_eq!(
            readable.to_string(),
            "read segment (unreadable, E1) 1 octets 01"
        );
        let fault = SegmentBuilder::syn(Seq(1)).options(&[1, 254, 1]).build();
        let words = SegmentWords(&fault).to_string();
        assert_eq!(words, "unreadable, E4 at 21");
    }
}
