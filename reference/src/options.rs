//! TCP options: walking the list, and reading the known kinds.

use crate::octets::{u16_at, u32_at};
use crate::ranges::Range;
use crate::refusal::{Place, Refusal};
use crate::segment::HEADER_LENGTH;
use crate::serial::{Seq, Stamp};

pub const END: u8 = 0;
pub const NOP: u8 = 1;
pub const MSS: u8 = 2;
pub const WINDOW_SCALE: u8 = 3;
pub const SACK_PERMITTED: u8 = 4;
pub const SACK: u8 = 5;
pub const TIMESTAMPS: u8 = 8;

/// The timestamps option.
#[derive(Clone, Copy, Debug, PartialEq, Eq)]
pub struct Timestamps {
    pub value: Stamp,
    pub echo: Stamp,
}

/// What the known options of a segment say, and how many others were skipped.
#[derive(Clone, Copy, Debug, Default, PartialEq, Eq)]
pub struct Options<'a> {
    pub mss: Option<u16>,
    pub scale: Option<u8>,
    pub sack_permitted: bool,
    pub timestamps: Option<Timestamps>,
    pub sack: BlocksInPlace<'a>,
    pub skipped: u8,
}

/// The answer of reading, refused or not, with the number of steps that the options took.
#[derive(Clone, Copy, Debug, PartialEq, Eq)]
pub struct Reading<T> {
    pub result: Result<T, Refusal>,
    pub steps: u8,
}

impl<'a> Options<'a> {
    /// Reads the options of a whole header.
    #[inline(always)]
    pub fn read(header: &'a [u8]) -> Reading<Options<'a>> {
        let mut walk = Walk::new(header);
        Reading {
            result: Options::note_all(&mut walk),
            steps: walk.steps,
        }
    }

    /// Notes the options from left to right; the first faulty one decides, and is the last that is walked to.
    #[inline(always)]
    fn note_all(walk: &mut Walk<'a>) -> Result<Options<'a>, Refusal> {
        let mut options = Options::default();
        for option in walk {
            let PlacedOption { place, octets } = option?;
            options.note(octets).map_err(|fault| fault(place))?;
        }
        Ok(options)
    }

    #[inline(always)]
    fn note(&mut self, option: &'a [u8]) -> Result<(), Fault> {
        let (kind, body) = (option[0], &option[2..]);
        match (kind, body.len()) {
            (MSS, 2) => set_once(&mut self.mss, Some(u16_at(body, 0))),
            (WINDOW_SCALE, 1) => set_once(&mut self.scale, Some(body[0])),
            (SACK_PERMITTED, 0) => set_once(&mut self.sack_permitted, true),
            (SACK, 8 | 16 | 24 | 32) => set_once(&mut self.sack, BlocksInPlace(body)),
            (TIMESTAMPS, 8) => set_once(&mut self.timestamps, Some(read_timestamps(body))),
            (MSS | WINDOW_SCALE | SACK_PERMITTED | SACK | TIMESTAMPS, _) => {
                Err(Refusal::OptionLength)
            }
            _ => {
                self.skipped += 1;
                Ok(())
            }
        }
    }
}

/// A fault whose place is still to be added.
type Fault = fn(Place) -> Refusal;

/// Notes what an option says; a second one of its kind finds the field no longer at its default.
fn set_once<T: Default + PartialEq>(field: &mut T, value: T) -> Result<(), Fault> {
    if *field != T::default() {
        return Err(Refusal::OptionRepeated);
    }
    *field = value;
    Ok(())
}

/// The blocks of a SACK option where they lie in the segment, so that reading one copies nothing.
#[derive(Clone, Copy, Debug, Default, PartialEq, Eq)]
pub struct BlocksInPlace<'a>(&'a [u8]);

impl<'a> BlocksInPlace<'a> {
    pub fn iter(self) -> impl Iterator<Item = Range> + Clone + 'a {
        self.0.chunks_exact(8).map(|block| Range {
            left: Seq(u32_at(block, 0)),
            right: Seq(u32_at(block, 4)),
        })
    }
}

fn read_timestamps(body: &[u8]) -> Timestamps {
    Timestamps {
        value: Stamp(u32_at(body, 0)),
        echo: Stamp(u32_at(body, 4)),
    }
}

/// An option with its kind and length octets, and where it stands in the segment.
#[derive(Clone, Copy, Debug, PartialEq, Eq)]
pub struct PlacedOption<'a> {
    pub place: Place,
    pub octets: &'a [u8],
}

/// Walks the options of a header. NOPs are passed over, the list ends at kind 0 or the header's end,
/// and an option out of bounds gives E4 and ends it too.
pub struct Walk<'a> {
    /// Where the header ends.
    end: usize,
    rest: &'a [u8],
    /// One for each NOP, kind 0 and option that was met, a faulty one included.
    steps: u8,
}

impl<'a> Walk<'a> {
    /// Takes a whole header, so that places count from the segment's first octet.
    pub fn new(header: &'a [u8]) -> Walk<'a> {
        Walk {
            end: header.len(),
            rest: &header[HEADER_LENGTH..],
            steps: 0,
        }
    }

    fn place(&self) -> Place {
        Place((self.end - self.rest.len()) as u8)
    }
}

impl<'a> Iterator for Walk<'a> {
    type Item = Result<PlacedOption<'a>, Refusal>;

    #[inline(always)]
    fn next(&mut self) -> Option<Self::Item> {
        while let [NOP, rest @ ..] = self.rest {
            self.rest = rest;
            self.steps += 1;
        }
        // The header's end is no step.
        if self.rest.is_empty() {
            return None;
        }
        self.steps += 1;
        let place = self.place();
        match *self.rest {
            [END, ..] => {
                self.rest = &[];
                None
            }
            [_, length, ..] if length >= 2 && usize::from(length) <= self.rest.len() => {
                let (octets, rest) = self.rest.split_at(usize::from(length));
                self.rest = rest;
                Some(Ok(PlacedOption { place, octets }))
            }
            _ => {
                self.rest = &[];
                Some(Err(Refusal::OptionBounds(place)))
            }
        }
    }
}

#[cfg(test)]
mod tests {
    use super::*;

    fn header(list: &[u8]) -> Vec<u8> {
        [&[0; HEADER_LENGTH][..], list].concat()
    }

    fn refusal(list: &[u8]) -> Option<Refusal> {
        Options::read(&header(list)).result.err()
    }

    fn skipped(list: &[u8]) -> u8 {
        Options::read(&header(list)).result.unwrap().skipped
    }

    fn steps(list: &[u8]) -> u8 {
        Options::read(&header(list)).steps
    }

    fn bounds(place: u8) -> Option<Refusal> {
        Some(Refusal::OptionBounds(Place(place)))
    }

    fn length(place: u8) -> Option<Refusal> {
        Some(Refusal::OptionLength(Place(place)))
    }

    fn repeated(place: u8) -> Option<Refusal> {
        Some(Refusal::OptionRepeated(Place(place)))
    }

    #[test]
    fn m7_an_option_past_the_header_is_e4() {
        assert_eq!(refusal(&[8, 9, 0, 0]), bounds(20));
    }

    #[test]
    fn e4_in_its_three_ways() {
        assert_eq!(refusal(&[1, 1, 1, 2]), bounds(23));
        assert_eq!(refusal(&[99, 0, 0, 0]), bounds(20));
        assert_eq!(refusal(&[99, 1, 0, 0]), bounds(20));
        assert_eq!(refusal(&[99, 5, 0, 0]), bounds(20));
        assert_eq!(refusal(&[99, 4, 0, 0]), None);
    }

    #[test]
    fn the_first_faulty_option_decides() {
        assert_eq!(refusal(&[2, 3, 0, 99, 0, 0, 0, 0]), length(20));
        assert_eq!(refusal(&[99, 2, 2, 3, 0, 99, 0, 0]), length(22));
        assert_eq!(refusal(&[4, 2, 4, 2]), repeated(22));
        assert_eq!(refusal(&[4, 2, 4, 2, 4, 2, 0, 0]), repeated(22));
        assert_eq!(refusal(&[4, 2, 4, 3, 0, 0, 0, 0]), length(22));
        assert_eq!(refusal(&[99, 2, 99, 2]), None);
    }

    #[test]
    fn places_behind_other_options() {
        assert_eq!(refusal(&[4, 2, 99, 0]), bounds(22));
        assert_eq!(refusal(&[99, 3, 0, 1, 8, 1, 0, 0]), bounds(24));
        assert_eq!(refusal(&[1, 99, 4, 4, 3, 3, 2, 0]), length(25));
        let between = [4, 2, 99, 3, 4, 1, 98, 2, 1, 4, 2, 0];
        assert_eq!(refusal(&between), repeated(29));
    }

    #[test]
    fn the_highest_places() {
        let last = |head: &[u8]| {
            let mut list = vec![1; 40 - head.len()];
            list.extend_from_slice(head);
            list
        };
        assert_eq!(refusal(&last(&[99])), bounds(59));
        assert_eq!(refusal(&last(&[4, 3])), bounds(58));
        assert_eq!(refusal(&last(&[2, 2])), length(58));
        let mut twice = last(&[4, 2]);
        assert_eq!(refusal(&twice), None);
        twice[..2].copy_from_slice(&[4, 2]);
        assert_eq!(refusal(&twice), repeated(58));
    }

    #[test]
    fn nothing_behind_kind_0_is_looked_at() {
        assert_eq!(refusal(&[1, 0, 2, 99]), None);
        assert_eq!(skipped(&[99, 2, 0, 99, 2, 99, 2, 0]), 1);
        assert_eq!(skipped(&[0, 99, 2, 0]), 0);
    }

    #[test]
    fn unknown_options_are_counted() {
        assert_eq!(skipped(&[]), 0);
        assert_eq!(skipped(&[99, 4, 98, 2]), 1);
        assert_eq!(skipped(&[99, 2, 99, 2]), 2);
        assert_eq!(skipped(&[1, 99, 2, 1, 6, 3, 0, 1]), 2);
        assert_eq!(skipped(&[255, 2].repeat(20)), 20);
        let mut whole_room = [0; 40];
        whole_room[..2].copy_from_slice(&[99, 40]);
        assert_eq!(skipped(&whole_room), 1);
    }

    #[test]
    fn known_options_are_not_counted() {
        let stamps = [8, 10, 0, 0, 0, 0, 0, 0, 0, 0];
        let sack = [5, 10, 0, 0, 0, 0, 0, 0, 0, 0];
        let known = [&[2, 4, 0, 0, 3, 3, 0, 4, 2][..], &stamps, &sack].concat();
        assert_eq!(skipped(&known), 0);
        let between = [&[99, 2, 4, 2, 98, 3, 0][..], &stamps, &[6, 2, 3, 3, 0]].concat();
        assert_eq!(skipped(&between), 3);
    }

    #[test]
    fn nops_options_and_kind_0_are_steps_and_the_end_of_the_header_is_none() {
        assert_eq!(steps(&[]), 0);
        assert_eq!(steps(&[1; 40]), 40);
        assert_eq!(steps(&[99, 2].repeat(20)), 20);
        assert_eq!(steps(&[1, 99, 3, 1, 2, 4, 1, 1]), 3);
        assert_eq!(steps(&[4, 2, 1, 0]), 3);
    }

    #[test]
    fn nothing_behind_kind_0_is_a_step() {
        assert_eq!(steps(&[0, 1, 99, 2]), 1);
        assert_eq!(steps(&[1, 0, 0, 0]), 2);
        assert_eq!(steps(&[99, 2, 0, 99]), 2);
    }

    #[test]
    fn a_faulty_option_is_the_last_step() {
        assert_eq!(steps(&[1, 1, 1, 99]), 4);
        assert_eq!(steps(&[99, 0, 1, 1]), 1);
        assert_eq!(steps(&[99, 2, 1, 99, 3, 0, 8, 9]), 4);
        assert_eq!(steps(&[1, 4, 3, 1, 99, 0, 0, 0]), 2);
        assert_eq!(steps(&[4, 2, 1, 4, 2, 1, 4, 2]), 3);
        assert_eq!(steps(&[&[1; 39][..], &[99]].concat()), 40);
        assert_eq!(steps(&[&[99, 2].repeat(19)[..], &[99, 3]].concat()), 20);
    }

    #[test]
    fn sack_blocks_are_read_in_order() {
        let header = header(&[5, 18, 0, 0, 0, 1, 0, 0, 0, 2, 0, 0, 0, 3, 0, 0, 0, 4, 0, 0]);
        let blocks = Options::read(&header).result.unwrap().sack;
        let edges: Vec<_> = blocks.iter().map(|b| (b.left.0, b.right.0)).collect();
        assert_eq!(edges, [(1, 2), (3, 4)]);
    }
}
