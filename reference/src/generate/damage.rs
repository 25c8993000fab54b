//! Random segments with random options, and damage to headers and options.

use crate::builder::{SegmentBuilder, MAX_OPTIONS};
use crate::options::{PlacedOption, Walk, MSS, SACK, SACK_PERMITTED, TIMESTAMPS, WINDOW_SCALE};
use crate::random::Random;
use crate::segment::HEADER_LENGTH;
use crate::serial::Seq;

use super::steps::many_steps;
use super::unknown::{scatter, unknown_kind};

const KNOWN: [(u8, &[usize]); 5] = [
    (MSS, &[4]),
    (WINDOW_SCALE, &[3]),
    (SACK_PERMITTED, &[2]),
    (SACK, &[10, 18, 26, 34]),
    (TIMESTAMPS, &[10]),
];

/// A kind of option, most often a known one.
pub fn random_kind(random: &mut Random) -> u8 {
    let any = random.next_u8();
    random.pick(&[0, 1, 2, 3, 4, 5, 8, 254, any])
}

/// A segment with random options; damage makes some of them unreadable.
pub fn random_segment(random: &mut Random) -> Vec<u8> {
    let options = if random.percent(25) {
        many_steps(random)
    } else {
        random_options(random)
    };
    let payload = random.pick(&[0, 0, 1, 7]);
    let seq = Seq(random.next_u32());
    let ack = Seq(random.next_u32());
    let mut octets = SegmentBuilder::new(seq, ack, random.next_u8())
        .window(random.next_u16())
        .urgent(random.next_u16())
        .options(&options)
        .payload(payload)
        .build();
    if random.percent(25) {
        scatter(random, &mut octets);
    }
    if random.percent(40) {
        damage(random, &mut octets);
    }
    octets
}

fn random_options(random: &mut Random) -> Vec<u8> {
    let mut options = Vec::new();
    for _ in 0..random.below(7) {
        let room = MAX_OPTIONS - options.len();
        let option = random_option(random);
        if option.len() <= room {
            options.extend(option);
        }
    }
    options
}

fn random_option(random: &mut Random) -> Vec<u8> {
    match random.below(10) {
        0 | 1 => vec![1],
        2 => vec![random.pick(&[0, 1, 1])],
        3 => {
            let kind = unknown_kind(random);
            let length = 2 + random.index(6);
            option_of(random, kind, length)
        }
        _ => {
            let (kind, lengths) = random.pick(&KNOWN);
            let length = random.pick(lengths);
            option_of(random, kind, length)
        }
    }
}

/// An option with a random body.
pub fn option_of(random: &mut Random, kind: u8, length: usize) -> Vec<u8> {
    let mut option = vec![kind, length as u8];
    option.extend(random.octets(length - 2));
    option
}

/// Damages a segment of at least 20 octets; some damage leaves it readable.
pub fn damage(random: &mut Random, octets: &mut Vec<u8>) {
    match random.below(10) {
        0 => octets.truncate(19),
        1 => {
            let length = random.index(octets.len());
            octets.truncate(length);
        }
        2 => set_offset(random, octets),
        3 => lengthen_header(random, octets),
        4 => {
            let at = random.index(octets.len());
            octets[at] = random.next_u8();
        }
        5 | 6 => insert_options(random, octets),
        _ => damage_options(random, octets),
    }
}

fn set_offset(random: &mut Random, octets: &mut [u8]) {
    let offset = random.below(16) as u8;
    octets[12] = offset << 4 | random.below(16) as u8;
}

/// Makes the header end exactly at the segment's end, or one step past it.
fn lengthen_header(random: &mut Random, octets: &mut [u8]) {
    let units = octets.len() / 4 + random.index(2);
    octets[12] = (units.min(15) as u8) << 4;
}

/// Puts four octets of options first; most make a known kind stand twice.
fn insert_options(random: &mut Random, octets: &mut Vec<u8>) {
    let options: [u8; 4] = random.pick(&[
        [SACK_PERMITTED, 2, SACK_PERMITTED, 2],
        [MSS, 4, 2, 24],
        [1, WINDOW_SCALE, 3, 2],
        [1, 1, SACK_PERMITTED, 2],
        [254, 2, 254, 2],
    ]);
    if octets[12] >> 4 < 15 {
        insert(octets, HEADER_LENGTH, &options);
    }
}

/// Puts options of a multiple of 4 octets into a header that has room for them.
pub fn insert(octets: &mut Vec<u8>, at: usize, options: &[u8]) {
    octets[12] += (options.len() as u8 / 4) << 4;
    octets.splice(at..at, options.iter().copied());
}

/// Overwrites the kind or the length of one option, or puts a kind at the header's end.
pub fn damage_options(random: &mut Random, octets: &mut [u8]) {
    let end = header_end(octets);
    let options = options_of(octets);
    if options.is_empty() {
        return;
    }
    let start = usize::from(random.pick(&options).place.0);
    let room = (end - start) as u8;
    let length = octets[start + 1];
    match random.below(8) {
        0 => octets[start] = random_kind(random),
        1 => octets[start + 1] = length.wrapping_sub(1),
        2 => octets[start + 1] = length.wrapping_add(1),
        3 => octets[start + 1] = random.pick(&[0, 1, 2]),
        4 => octets[start + 1] = room,
        5 => octets[start + 1] = room + 1,
        6 => octets[start + 1] = random.pick(&[2, 3, 4, 10, 18, 26, 34]),
        _ => {
            octets[start..end - 1].fill(1);
            octets[end - 1] = random_kind(random);
        }
    }
}

/// Where the header ends, by its data offset or with the segment.
pub fn header_end(octets: &[u8]) -> usize {
    (usize::from(octets[12] >> 4) * 4).min(octets.len())
}

/// The options of a header up to the first that is out of bounds.
pub fn options_of(octets: &[u8]) -> Vec<PlacedOption<'_>> {
    match &octets[..header_end(octets)] {
        header if header.len() > HEADER_LENGTH => Walk::new(header).flatten().collect(),
        _ => Vec::new(),
    }
}
