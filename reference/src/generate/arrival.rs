//! Random segments that arrive at a connection, near the edges of its record.

use crate::builder::SegmentBuilder;
use crate::connection::{Connection, MAX_WINDOW_FIELD};
use crate::random::Random;
use crate::ranges::Range;
use crate::segment::{ACK, FIN, MAX_SEGMENT, PSH, RST, SYN};
use crate::serial::{Seq, Stamp, HALF};

use super::edges::{around, beside, round_trip, serial_near};
use super::opening::random_window_field;
use super::{damage, unknown, Generator, Pattern, LONG_ARRIVAL_RATE, LONG_FREE_RATE};

impl Generator {
    pub(super) fn random_arrival(&mut self, connection: &Connection, clock: u64) -> Vec<u8> {
        if self.wants_long_body(LONG_ARRIVAL_RATE) {
            return long_segment(&mut self.random, connection);
        }
        let pattern = self.pattern;
        let random = &mut self.random;
        let length = payload_length(random, connection, pattern);
        let seq = random_seq(random, connection, pattern, length as u32);
        let ack = random_ack(random, connection);
        let mut segment = SegmentBuilder::new(seq, ack, random_flags(random))
            .window(arriving_window(random, connection))
            .payload(length);
        if random.percent(if connection.timestamps { 96 } else { 20 }) {
            let (value, echo) = random_stamps(random, connection, clock);
            segment = segment.timestamps(value, echo);
        }
        if random.percent(20) {
            segment = with_sack(random, segment, connection, ack);
        }
        let mut octets = segment.build();
        if random.percent(20) {
            unknown::scatter(random, &mut octets);
        }
        if random.percent(4) {
            damage::damage(random, &mut octets);
        }
        octets
    }

    /// A segment for the calls that read one without a record.
    pub(super) fn random_free_segment(&mut self) -> Vec<u8> {
        let mut octets = damage::random_segment(&mut self.random);
        if self.wants_long_body(LONG_FREE_RATE) {
            octets.resize(longest_length(&mut self.random), 0);
        }
        octets
    }
}

fn long_segment(random: &mut Random, connection: &Connection) -> Vec<u8> {
    let seq = connection.rcv_nxt.plus(random.below_u32(3));
    let mut segment = SegmentBuilder::data(seq, connection.snd_una, 0);
    if connection.timestamps {
        segment = segment.timestamps(connection.ts_recent, Stamp(0));
    }
    let mut octets = segment.build();
    octets.resize(longest_length(random), 0);
    octets
}

/// A length at the limit of a segment or beside it.
pub fn longest_length(random: &mut Random) -> usize {
    beside(random, MAX_SEGMENT as u32) as usize
}

fn payload_length(random: &mut Random, connection: &Connection, pattern: Pattern) -> usize {
    let window = connection.rcv_wnd;
    match random.below(100) {
        0..=19 => 0,
        20..=79 if pattern == Pattern::Holes => 1 + random.index(2),
        20..=59 => 1 + random.index(4),
        60..=89 => random.index(40),
        90..=94 if window < 1_000 => beside(random, window.max(1)) as usize,
        _ => random.index(300),
    }
}

fn random_seq(random: &mut Random, connection: &Connection, pattern: Pattern, length: u32) -> Seq {
    let next = connection.rcv_nxt;
    let in_order = match pattern {
        Pattern::InOrder => 55,
        Pattern::Mixed => 30,
        Pattern::Holes => 6,
    };
    if random.percent(in_order) {
        return next;
    }
    match random.below(100) {
        0..=49 => {
            let span = random.pick(&[20, 80, 400, 3_000]);
            next.plus(1 + random.below_u32(connection.rcv_wnd.clamp(1, span)))
        }
        50..=61 => near_held_range(random, connection, length),
        62..=73 => near_right_edge(random, connection, length),
        74..=85 => before_next(random, next, length),
        86..=88 => Seq(serial_near(random, connection.last_ack_sent.0)),
        89..=93 => connection.snd_wl1,
        94 => Seq(beside(random, connection.snd_wl1.0)),
        95 => Seq(beside(random, next.0.wrapping_add(HALF))),
        96..=98 => next.plus(random.below_u32(connection.rcv_wnd.max(1))),
        _ => Seq(random.next_u32()),
    }
}

fn near_held_range(random: &mut Random, connection: &Connection, length: u32) -> Seq {
    let held = connection.held.as_slice();
    if held.is_empty() {
        return connection.rcv_nxt.plus(2);
    }
    let range = random.pick(held);
    let edge = random.pick(&[range.left, range.right, range.left.minus(length)]);
    Seq(beside(random, edge.0))
}

fn near_right_edge(random: &mut Random, connection: &Connection, length: u32) -> Seq {
    let edge = connection.rcv_nxt.plus(connection.rcv_wnd);
    let start = random.pick(&[edge, edge.minus(length), edge.minus(length / 2)]);
    Seq(beside(random, start.0))
}

fn before_next(random: &mut Random, next: Seq, length: u32) -> Seq {
    let start = random.pick(&[next.minus(1), next.minus(length), next.minus(length / 2)]);
    Seq(beside(random, start.0))
}

fn random_ack(random: &mut Random, connection: &Connection) -> Seq {
    let (una, nxt) = (connection.snd_una, connection.snd_nxt);
    match random.below(100) {
        0..=24 => una,
        25..=35 => nxt,
        // A little of what is outstanding, so that much is left.
        36..=51 => una.plus((1 + random.below_u32(3)).min(una.offset_of(nxt))),
        52..=70 => una.plus(random.below_u32(una.offset_of(nxt).saturating_add(1))),
        71..=77 => Seq(beside(random, nxt.0)),
        78..=82 => Seq(beside(random, una.0)),
        83..=84 => Seq(beside(random, nxt.0.wrapping_add(HALF))),
        85 => Seq(beside(random, connection.snd_wl2.0.wrapping_add(HALF))),
        86..=94 => before_una(random, connection),
        95..=96 => Seq(serial_near(random, una.0)),
        97 => connection.snd_wl2,
        _ => Seq(random.next_u32()),
    }
}

/// An ACK before SND.UNA: around the oldest that is taken, around the present window, between, or around 2^31 away.
fn before_una(random: &mut Random, connection: &Connection) -> Seq {
    let una = connection.snd_una;
    let largest = connection.max_snd_wnd;
    match random.below(8) {
        0..=3 => Seq(around(random, una.minus(largest).0)),
        4 => Seq(around(random, una.minus(connection.snd_wnd).0)),
        5 | 6 => una.minus(random.below_u32(largest + 1)),
        _ => Seq(around(random, una.minus(HALF).0)),
    }
}

/// A window field that often lies below the largest so far or rises a little above it.
fn arriving_window(random: &mut Random, connection: &Connection) -> u16 {
    let largest = connection.max_snd_wnd >> connection.snd_shift;
    let field = match random.below(10) {
        0 | 1 => return random_window_field(random),
        2..=4 => around(random, largest + 2),
        5 | 6 => largest,
        _ => random.below_u32(largest + 1),
    };
    field.min(MAX_WINDOW_FIELD) as u16
}

fn random_flags(random: &mut Random) -> u8 {
    match random.below(100) {
        0..=69 => ACK,
        70..=76 => ACK | PSH,
        77..=83 => ACK | FIN,
        84..=86 => RST,
        87..=89 => RST | ACK,
        90 => SYN,
        91 => SYN | ACK,
        92 => 0,
        93 => FIN,
        94 => SYN | RST | FIN,
        _ => random.next_u8(),
    }
}

fn random_stamps(random: &mut Random, connection: &Connection, clock: u64) -> (Stamp, Stamp) {
    let recent = connection.ts_recent;
    let value = match random.below(20) {
        0..=5 => recent,
        6..=15 => recent.plus(random.below_u32(50)),
        16 => recent.minus(1),
        17 => Stamp(beside(random, recent.0.wrapping_add(HALF))),
        18 => Stamp(serial_near(random, recent.0)),
        _ => Stamp(random.next_u32()),
    };
    (value, connection.stamp(clock).minus(round_trip(random)))
}

/// Adds SACK blocks whose edges lie near SND.UNA, the segment's ACK and SND.NXT.
fn with_sack(
    random: &mut Random,
    segment: SegmentBuilder,
    connection: &Connection,
    ack: Seq,
) -> SegmentBuilder {
    let room = segment.option_room().saturating_sub(2) / 8;
    let count = 1 + random.index(room);
    let blocks: Vec<Range> = (0..count)
        .map(|_| Range {
            left: block_edge(random, connection, ack),
            right: block_edge(random, connection, ack),
        })
        .collect();
    segment.sack(&blocks)
}

fn block_edge(random: &mut Random, connection: &Connection, ack: Seq) -> Seq {
    let (una, nxt) = (connection.snd_una, connection.snd_nxt);
    match random.below(20) {
        0..=3 => Seq(beside(random, una.0)),
        4..=7 => Seq(beside(random, ack.0)),
        8..=12 => Seq(beside(random, nxt.0)),
        13..=18 => una.plus(random.below_u32(una.offset_of(nxt).saturating_add(2))),
        _ => Seq(serial_near(random, una.0)),
    }
}
