//! Unknown options scattered among the options of a segment, some of which become faulty.

use crate::builder::MAX_OPTIONS;
use crate::options::{MSS, NOP, SACK, SACK_PERMITTED, TIMESTAMPS, WINDOW_SCALE};
use crate::random::Random;
use crate::segment::HEADER_LENGTH;

use super::damage::{damage_options, header_end, insert, option_of, options_of};

/// Options with a fault.
pub const FAULTS: [[u8; 4]; 8] = [
    [254, 0, NOP, NOP],
    [NOP, 254, 1, NOP],
    [NOP, NOP, 254, 255],
    [MSS, 3, 0, NOP],
    [NOP, NOP, WINDOW_SCALE, 2],
    [SACK_PERMITTED, 4, 0, 0],
    [NOP, SACK, 2, NOP],
    [254, 2, TIMESTAMPS, 2],
];

/// Options that are a fault when they stand there twice.
pub const REPEATED: [[u8; 4]; 3] = [
    [MSS, 4, 2, 24],
    [WINDOW_SCALE, 3, 2, NOP],
    [254, 2, SACK_PERMITTED, 2],
];

/// A kind that is not known.
pub fn unknown_kind(random: &mut Random) -> u8 {
    let any = 9 + random.below(247) as u8;
    random.pick(&[6, 7, 9, 254, 255, any])
}

/// Puts unknown options before, between and behind the options of a segment whose header is whole, as far as there is room.
pub fn scatter(random: &mut Random, octets: &mut Vec<u8>) {
    for _ in 0..random.pick(&[1, 1, 2, 3]) {
        let room = option_room(octets);
        let length = random.pick(&[4, 4, 8, 12, room]).min(room);
        let options = unknown_options(random, length);
        insert_anywhere(random, octets, &options);
    }
    match random.below(20) {
        0 | 1 => damage_options(random, octets),
        2 => {
            let options = random.pick(&FAULTS);
            insert_anywhere(random, octets, &options);
        }
        3 => {
            let options = random.pick(&REPEATED);
            insert_anywhere(random, octets, &options);
            insert_anywhere(random, octets, &options);
        }
        _ => {}
    }
}

fn option_room(octets: &[u8]) -> usize {
    HEADER_LENGTH + MAX_OPTIONS - header_end(octets)
}

fn insert_anywhere(random: &mut Random, octets: &mut Vec<u8>, options: &[u8]) {
    if options.len() <= option_room(octets) {
        let at = random.pick(&gaps(octets));
        insert(octets, at, options);
    }
}

/// Where options can be put in: before each, behind the last, and at the header's end, which kind 0 may hide.
fn gaps(octets: &[u8]) -> Vec<usize> {
    let end = header_end(octets);
    let mut gaps = vec![HEADER_LENGTH, end];
    for option in options_of(octets) {
        let start = usize::from(option.place.0);
        gaps.extend([start, start + option.octets.len()]);
    }
    gaps
}

/// So many octets of unknown options, with NOPs among them unless all are as short as can be.
fn unknown_options(random: &mut Random, length: usize) -> Vec<u8> {
    let all_short = random.percent(40);
    let mut options = Vec::new();
    while options.len() < length {
        let room = length - options.len();
        if room < 2 || (!all_short && random.percent(15)) {
            options.push(NOP);
            continue;
        }
        let any = 2 + random.index(room - 1);
        let option_length = if all_short { 2 } else { random.pick(&[2, any]) };
        let kind = unknown_kind(random);
        options.extend(option_of(random, kind, option_length));
    }
    options
}

#[cfg(test)]
mod tests {
    use super::*;
    use crate::builder::SegmentBuilder;
    use crate::segment::Segment;
    use crate::serial::{Seq, Stamp};

    #[test]
    fn unknown_options_fill_their_octets() {
        let mut random = Random::new(1);
        for length in (0..=MAX_OPTIONS).step_by(4) {
            assert_eq!(unknown_options(&mut random, length).len(), length);
        }
    }

    #[test]
    fn what_was_there_stays_readable_or_is_refused_for_an_option() {
        let mut random = Random::new(2);
        let segment = SegmentBuilder::syn(Seq(1))
            .mss(536)
            .timestamps(Stamp(1), Stamp(2))
            .payload(3)
            .build();
        let mut most = 0;
        for _ in 0..1_000 {
            let mut octets = segment.clone();
            scatter(&mut random, &mut octets);
            match Segment::read(&octets).result {
                Ok(read) => most = most.max(read.options.skipped),
                Err(refusal) => assert!(refusal.place().is_some()),
            }
        }
        // MSS and timestamps, filled up to 16 octets, leave room for 12.
        assert!(most >= 12);
    }
}
