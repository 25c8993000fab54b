//! Reading a TCP segment: header, options and payload.

use crate::octets::{u16_at, u32_at};
use crate::options::{Options, Reading, Walk};
use crate::refusal::Refusal;
use crate::serial::Seq;

pub const HEADER_LENGTH: usize = 20;
pub const MAX_SEGMENT: usize = 65_535;

pub const FIN: u8 = 0x01;
pub const SYN: u8 = 0x02;
pub const RST: u8 = 0x04;
pub const PSH: u8 = 0x08;
pub const ACK: u8 = 0x10;

/// The flags octet.
#[derive(Clone, Copy, Debug, PartialEq, Eq)]
pub struct Flags(pub u8);

impl Flags {
    pub fn fin(self) -> bool {
        self.0 & FIN != 0
    }

    pub fn syn(self) -> bool {
        self.0 & SYN != 0
    }

    pub fn rst(self) -> bool {
        self.0 & RST != 0
    }

    pub fn ack(self) -> bool {
        self.0 & ACK != 0
    }
}

/// A segment that was read; the payload is borrowed from its octets.
#[derive(Clone, Copy, Debug, PartialEq, Eq)]
pub struct Segment<'a> {
    pub source: u16,
    pub destination: u16,
    pub seq: Seq,
    pub ack: Seq,
    pub flags: Flags,
    pub window: u16,
    pub urgent: u16,
    pub options: Options<'a>,
    pub payload_offset: usize,
    pub payload: &'a [u8],
}

impl<'a> Segment<'a> {
    // Inlined with all that reads options, so that the fields do not go by way of memory.
    #[inline(always)]
    pub fn read(octets: &'a [u8]) -> Reading<Segment<'a>> {
        let payload_offset = match header_length(octets) {
            Ok(length) => length,
            // No option is met before the header is known to be whole.
            Err(refusal) => {
                return Reading {
                    result: Err(refusal),
                    steps: 0,
                }
            }
        };
        let Reading { result, steps } = Options::read(&octets[..payload_offset]);
        // A match, since the compiler passes what `map` gives through memory.
        let result = match result {
            Ok(options) => Ok(Segment {
                source: u16_at(octets, 0),
                destination: u16_at(octets, 2),
                seq: Seq(u32_at(octets, 4)),
                ack: Seq(u32_at(octets, 8)),
                flags: Flags(octets[13]),
                window: u16_at(octets, 14),
                urgent: u16_at(octets, 18),
                options,
                payload_offset,
                payload: &octets[payload_offset..],
            }),
            Err(refusal) => Err(refusal),
        };
        Reading { result, steps }
    }

    /// LEN: the sequence numbers that the segment occupies, SYN and FIN included.
    pub fn length(&self) -> u32 {
        self.payload.len() as u32 + u32::from(self.flags.syn()) + u32::from(self.flags.fin())
    }
}

fn header_length(octets: &[u8]) -> Result<usize, Refusal> {
    if octets.len() < HEADER_LENGTH {
        return Err(Refusal::SegmentTooShort);
    }
    if octets.len() > MAX_SEGMENT {
        return Err(Refusal::SegmentTooLong);
    }
    let length = usize::from(octets[12] >> 4) * 4;
    if length < HEADER_LENGTH || length > octets.len() {
        return Err(Refusal::DataOffset);
    }
    Ok(length)
}

/// The number of the refusal that reading gives, 0 for a readable segment.
pub fn refusal_number(octets: &[u8]) -> u8 {
    match Segment::read(octets).result {
        Ok(_) => 0,
        Err(refusal) => refusal.number(),
    }
}

/// The first option of the segment whose kind is in `kinds`, with its kind and length octets;
/// empty where none matches or the segment is unreadable.
pub fn find_option<'a>(octets: &'a [u8], kinds: &[u8]) -> &'a [u8] {
    match Segment::read(octets).result {
        // The walk never gives kinds 0 and 1, so these match nothing.
        Ok(segment) => Walk::new(&octets[..segment.payload_offset])
            .flatten()
            .map(|option| option.octets)
            .find(|octets| kinds.contains(&octets[0]))
            .unwrap_or(&[]),
        Err(_) => &[],
    }
}

#[cfg(test)]
mod tests {
    use super::*;
    use crate::refusal::Place;

    fn header(offset: u8, length: usize) -> Vec<u8> {
        let mut octets = vec![0; length];
        octets[12] = offset << 4;
        octets
    }

    #[test]
    fn m6_no_options_is_readable() {
        let octets = header(5, 20);
        let segment = Segment::read(&octets).result.unwrap();
        assert_eq!(segment.options, Options::default());
        assert_eq!((segment.payload_offset, segment.length()), (20, 0));
    }

    #[test]
    fn limits_of_length_and_offset() {
        assert_eq!(refusal_number(&header(5, 19)), 1);
        assert_eq!(refusal_number(&header(5, 65_535)), 0);
        assert_eq!(refusal_number(&header(5, 65_536)), 2);
        assert_eq!(refusal_number(&header(4, 20)), 3);
        assert_eq!(refusal_number(&header(6, 23)), 3);
        assert_eq!(refusal_number(&header(6, 24)), 0);
    }

    #[test]
    fn payload_does_not_complete_an_option() {
        let mut octets = header(6, 40);
        octets[20..22].copy_from_slice(&[99, 5]);
        assert_eq!(refusal_number(&octets), 4);
        octets[21] = 4;
        assert_eq!(refusal_number(&octets), 0);
    }

    #[test]
    fn places_count_from_the_first_octet_and_counts_are_fields() {
        let mut octets = header(7, 30);
        octets[20..28].copy_from_slice(&[99, 2, 1, 98, 2, 4, 3, 0]);
        let fault = Refusal::OptionLength(Place(25));
        assert_eq!(Segment::read(&octets).result, Err(fault));
        octets[26] = 2;
        let segment = Segment::read(&octets).result.unwrap();
        assert_eq!(segment.options.skipped, 2);
    }

    #[test]
    fn every_answer_carries_the_steps() {
        let steps = |octets: &[u8]| Segment::read(octets).steps;
        let mut octets = header(7, 30);
        octets[20..28].copy_from_slice(&[99, 2, 1, 98, 2, 4, 3, 0]);
        assert_eq!(steps(&octets), 4);
        octets[26] = 2;
        assert_eq!(steps(&octets), 5);
        // E1, E3, E2.
        assert_eq!(steps(&octets[..19]), 0);
        assert_eq!(steps(&octets[..27]), 0);
        octets.resize(65_536, 1);
        assert_eq!(steps(&octets), 0);
    }

    #[test]
    fn payload_holds_no_steps() {
        let mut octets = header(6, 24);
        octets[20..].fill(1);
        octets.resize(30, 1);
        assert_eq!(Segment::read(&octets).steps, 4);
    }

    #[test]
    fn length_counts_syn_and_fin() {
        let mut octets = header(5, 27);
        octets[13] = SYN | FIN;
        assert_eq!(Segment::read(&octets).result.unwrap().length(), 9);
    }

    #[test]
    fn find_follows_the_order_of_the_segment() {
        let mut octets = header(7, 30);
        octets[20..28].copy_from_slice(&[1, 99, 3, 7, 4, 2, 0, 0]);
        assert_eq!(find_option(&octets, &[4, 99]), [99, 3, 7]);
        assert_eq!(find_option(&octets, &[4]), [4, 2]);
        assert!(find_option(&octets, &[0, 1]).is_empty());
        assert!(find_option(&octets, &[]).is_empty());
        octets[26..28].copy_from_slice(&[1, 9]);
        assert!(find_option(&octets, &[99]).is_empty());
    }
}
