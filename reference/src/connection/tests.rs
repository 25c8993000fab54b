//! Marked cases, the examples of RFC 2018, and edges of the verdicts on single records.

use super::*;
use crate::builder::SegmentBuilder;
use crate::cases::{self, opening, syn, CLOCK, ISS, UNA};
use crate::ranges::Range;
use crate::refusal::Place;
use crate::segment::{ACK, FIN, RST, SYN};
use crate::serial::HALF;
use crate::timer::MIN_RTO;

mod ack_range;
mod expected_samples;

fn open(opening: &Opening, syn: &SegmentBuilder) -> Connection {
    Connection::open(opening, &syn.build()).unwrap().connection
}

/// A record at RCV.NXT 5000 with SACK in force.
fn with_sack() -> Connection {
    let opening = Opening {
        sack: true,
        ..opening()
    };
    open(&opening, &syn().sack_permitted())
}

/// A record at RCV.NXT 5000 with timestamps in force and TS.Recent 100.
fn with_timestamps() -> Connection {
    let opening = Opening {
        timestamps: true,
        ..opening()
    };
    open(&opening, &syn().timestamps(Stamp(100), Stamp(0)))
}

fn data(seq: u32, length: usize) -> SegmentBuilder {
    cases::data(Seq(seq), length)
}

fn arrive(connection: &mut Connection, clock: u64, segment: &SegmentBuilder) -> u8 {
    match connection.arrive(clock, &segment.build()) {
        Ok(judged) => judged.verdict.number(),
        Err(refusal) => refusal.number(),
    }
}

/// The number of a verdict, and the count that comes with it.
fn judged(connection: &mut Connection, segment: &SegmentBuilder) -> (u8, u8) {
    let segment = segment.build();
    let judged = connection.arrive(CLOCK, &segment).unwrap();
    (judged.verdict.number(), judged.skipped)
}

/// The new part and the reported blocks of a segment that is taken.
fn take(connection: &mut Connection, segment: &SegmentBuilder) -> (Part, Vec<Range>) {
    let segment = segment.build();
    match connection
        .arrive(CLOCK, &segment)
        .map(|judged| judged.verdict)
    {
        Ok(Verdict::Take(taken)) => (taken.part, taken.sack.iter().collect()),
        other => panic!("not taken: {:?}", other),
    }
}

fn held(connection: &Connection) -> Vec<(u32, u32)> {
    let edges = |range: &Range| (range.left.0, range.right.0);
    connection.held.as_slice().iter().map(edges).collect()
}

/// The ACK and the SACK blocks of an acknowledgment, read back from what is written.
fn acknowledged(connection: &mut Connection) -> (u32, Vec<(u32, u32)>) {
    let mut buffer = [0xee; 60];
    let length = connection.acknowledge(1, 2, CLOCK, &mut buffer).unwrap();
    assert!(buffer[length..].iter().all(|&octet| octet == 0xee));
    let segment = Segment::read(&buffer[..length]).result.unwrap();
    let edges = |range: Range| (range.left.0, range.right.0);
    let blocks = segment.options.sack.iter().map(edges).collect();
    (segment.ack.0, blocks)
}

#[test]
fn m4_largest_window() {
    let opening = Opening {
        shift: Some(14),
        ..opening()
    };
    let mut connection = open(&opening, &syn().scale(14));
    assert_eq!(connection.snd_wnd, 8_192);
    take(&mut connection, &data(5_000, 0).window(65_535));
    assert_eq!(connection.snd_wnd, 1_073_725_440);
    assert!(connection.snd_wnd < 1 << 30);
    assert_eq!(
        connection.open_window(1_073_725_441),
        Err(Refusal::ReceiveWindow)
    );
    assert_eq!(connection.open_window(1_073_725_440), Ok(()));
}

#[test]
fn m5_peer_shift_15_counts_as_14() {
    let opening = Opening {
        shift: Some(3),
        ..opening()
    };
    let connection = open(&opening, &syn().scale(15));
    assert_eq!((connection.rcv_shift, connection.snd_shift), (3, 14));
}

#[test]
fn m10_ranges_newest_first() {
    let mut connection = with_sack();
    for seq in [5_000, 6_000, 7_000, 8_000] {
        take(&mut connection, &data(seq, 500));
    }
    assert_eq!(connection.rcv_nxt, Seq(5_500));
    assert_eq!(
        held(&connection),
        [(8_000, 8_500), (7_000, 7_500), (6_000, 6_500)]
    );
}

#[test]
fn rfc_2018_last_four_lost() {
    let mut connection = with_sack();
    for (seq, ack) in [
        (5_000, 5_500),
        (5_500, 6_000),
        (6_000, 6_500),
        (6_500, 7_000),
    ] {
        take(&mut connection, &data(seq, 500));
        assert_eq!(acknowledged(&mut connection), (ack, vec![]));
    }
}

#[test]
fn rfc_2018_first_lost() {
    let mut connection = with_sack();
    for seq in [5_500, 6_000, 6_500, 7_000, 7_500, 8_000, 8_500] {
        take(&mut connection, &data(seq, 500));
        assert_eq!(
            acknowledged(&mut connection),
            (5_000, vec![(5_500, seq + 500)])
        );
    }
}

#[test]
fn rfc_2018_every_second_lost() {
    let mut connection = with_sack();
    let steps = [
        (5_000, 5_500, vec![]),
        (6_000, 5_500, vec![(6_000, 6_500)]),
        (7_000, 5_500, vec![(7_000, 7_500), (6_000, 6_500)]),
        (
            8_000,
            5_500,
            vec![(8_000, 8_500), (7_000, 7_500), (6_000, 6_500)],
        ),
        (6_500, 5_500, vec![(6_000, 7_500), (8_000, 8_500)]),
        (5_500, 7_500, vec![(8_000, 8_500)]),
    ];
    for (seq, ack, blocks) in steps {
        take(&mut connection, &data(seq, 500));
        assert_eq!(acknowledged(&mut connection), (ack, blocks));
    }
}

#[test]
fn the_right_edge_stays() {
    let mut connection = with_sack();
    take(&mut connection, &data(5_500, 500));
    take(&mut connection, &data(5_000, 500));
    assert_eq!(connection.rcv_nxt, Seq(6_000));
    assert_eq!(connection.rcv_wnd, 64_535);
    assert!(connection.held.is_empty());
}

#[test]
fn parts_are_cut_by_both_edges() {
    let mut connection = with_sack();
    connection.rcv_wnd = 10;
    let part = |connection: &Connection, segment: &SegmentBuilder| {
        let mut copy = *connection;
        let (part, _) = take(&mut copy, segment);
        (part.offset, part.length, part.fin)
    };
    let fin = ACK | FIN;
    assert_eq!(part(&connection, &data(4_990, 15).flags(fin)), (0, 6, true));
    assert_eq!(part(&connection, &data(5_005, 4).flags(fin)), (5, 5, true));
    assert_eq!(part(&connection, &data(5_005, 5).flags(fin)), (5, 5, false));
    assert_eq!(part(&connection, &data(5_009, 0)), (0, 0, false));
    assert_eq!(arrive(&mut connection, CLOCK, &data(5_010, 0)), 24);
    assert_eq!(arrive(&mut connection, CLOCK, &data(4_999, 12)), 24);
    assert_eq!(arrive(&mut connection, CLOCK, &data(4_990, 10)), 24);
    assert_eq!(part(&connection, &data(4_999, 11)), (0, 10, false));
}

#[test]
fn a_closed_window_accepts_only_an_empty_segment_at_next() {
    let mut connection = with_sack();
    connection.rcv_wnd = 0;
    assert_eq!(arrive(&mut connection, CLOCK, &data(5_000, 0)), 0);
    assert_eq!(arrive(&mut connection, CLOCK, &data(5_001, 0)), 24);
    assert_eq!(arrive(&mut connection, CLOCK, &data(5_000, 1)), 24);
    assert_eq!(
        arrive(&mut connection, CLOCK, &data(5_000, 1).flags(RST)),
        23
    );
}

#[test]
fn resets() {
    let mut connection = with_timestamps();
    let before = connection;
    assert_eq!(
        arrive(&mut connection, CLOCK, &data(5_000, 0).flags(RST)),
        25
    );
    assert_eq!(
        arrive(&mut connection, CLOCK, &data(5_001, 0).flags(RST)),
        26
    );
    assert_eq!(
        arrive(&mut connection, CLOCK, &data(4_999, 0).flags(RST)),
        23
    );
    assert_eq!(
        arrive(&mut connection, 9_999, &data(5_000, 0).flags(RST)),
        8
    );
    assert_eq!(connection, before);
}

#[test]
fn timestamps_2_31_apart_are_not_old() {
    let stamped = |value: Stamp| data(5_000, 0).timestamps(value, Stamp(0));
    let recent = Stamp(100);
    let number = |value| arrive(&mut with_timestamps(), CLOCK, &stamped(value));
    assert_eq!(number(recent), 0);
    assert_eq!(number(recent.minus(1)), 22);
    assert_eq!(number(recent.minus(HALF - 1)), 22);
    assert_eq!(number(recent.minus(HALF)), 0);
    assert_eq!(number(recent.plus(HALF - 1)), 0);
}

#[test]
fn ts_recent_is_outdated_after_more_than_24_days() {
    let old = data(5_000, 0).timestamps(Stamp(99), Stamp(0));
    let number = |clock| arrive(&mut with_timestamps(), clock, &old);
    assert_eq!(number(CLOCK + 2_073_600_000), 22);
    assert_eq!(number(CLOCK + 2_073_600_001), 0);
}

#[test]
fn ts_recent_follows_only_segments_at_or_before_last_ack_sent() {
    let stamped = |seq| data(seq, 1).timestamps(Stamp(200), Stamp(0));
    let mut connection = with_timestamps();
    assert_eq!(arrive(&mut connection, 10_001, &stamped(5_001)), 0);
    assert_eq!(
        (connection.ts_recent, connection.ts_recent_clock),
        (Stamp(100), CLOCK)
    );
    assert_eq!(arrive(&mut connection, 10_002, &stamped(5_000)), 0);
    assert_eq!(
        (connection.ts_recent, connection.ts_recent_clock),
        (Stamp(200), 10_002)
    );
}

#[test]
fn last_ack_sent_2_31_away_keeps_ts_recent() {
    let stamped = data(5_000, 0).timestamps(Stamp(200), Stamp(0));
    for (last_ack_sent, recent) in [
        (Seq(5_000).plus(HALF), Stamp(100)),
        (Seq(5_000).plus(HALF - 1), Stamp(200)),
        (Seq(4_999), Stamp(100)),
        (Seq(5_000), Stamp(200)),
    ] {
        let mut connection = with_timestamps();
        connection.last_ack_sent = last_ack_sent;
        take(&mut connection, &stamped);
        assert_eq!(connection.ts_recent, recent);
    }
}

#[test]
fn window_updates_stop_2_31_away() {
    let updated = |wl1: Seq, wl2: Seq| {
        let mut connection = with_sack();
        connection.snd_wl1 = wl1;
        connection.snd_wl2 = wl2;
        take(&mut connection, &data(5_000, 0).window(7));
        connection.snd_wnd == 7
    };
    let seq = Seq(5_000);
    assert!(updated(seq.minus(1), UNA.plus(9)));
    assert!(updated(seq.minus(HALF - 1), UNA));
    assert!(!updated(seq.minus(HALF), UNA));
    assert!(!updated(seq.plus(1), UNA));
    assert!(updated(seq, UNA));
    assert!(updated(seq, UNA.minus(HALF - 1)));
    assert!(!updated(seq, UNA.minus(HALF)));
    assert!(!updated(seq, UNA.plus(1)));
}

#[test]
fn acks_around_the_sent_octets() {
    let mut connection = with_sack();
    assert_eq!(connection.note_sent(8_193), Err(Refusal::BeyondSendWindow));
    assert_eq!(connection.note_sent(8_192), Ok(()));
    assert_eq!(connection.note_sent(1), Err(Refusal::BeyondSendWindow));
    let nxt = UNA.plus(8_192);
    let number = |connection: &mut Connection, ack| {
        arrive(connection, CLOCK, &SegmentBuilder::data(Seq(5_000), ack, 0))
    };
    assert_eq!(number(&mut connection, nxt.plus(1)), 29);
    assert_eq!(number(&mut connection, nxt.plus(HALF - 1)), 29);
    assert_eq!(number(&mut connection, nxt.plus(HALF)), 31);
    assert_eq!(number(&mut connection, UNA.minus(1)), 0);
    assert_eq!(connection.snd_una, UNA);
    assert_eq!(number(&mut connection, nxt), 0);
    assert_eq!(connection.snd_una, nxt);
}

#[test]
fn samples_of_a_record() {
    let mut connection = with_timestamps();
    connection.note_sent(10).unwrap();
    let acking = |ack: u32, round_trip: u32| {
        let stamp = Stamp::of_clock(CLOCK, 0);
        SegmentBuilder::data(Seq(5_000), UNA.plus(ack), 0)
            .timestamps(Stamp(100), stamp.minus(round_trip))
    };
    take(&mut connection, &acking(0, 5));
    assert_eq!(connection.timer.rto, MIN_RTO);
    take(&mut connection, &acking(1, 600_001));
    assert_eq!(connection.timer, Timer::default());
    assert_eq!(connection.snd_una, UNA.plus(1));
    take(&mut connection, &acking(2, 1_000));
    assert_eq!(connection.timer.rto, 3_004);
}

#[test]
fn peer_blocks_are_judged_after_the_take() {
    let mut connection = with_sack();
    connection.note_sent(100).unwrap();
    let block = |left: u32, right: u32| Range {
        left: UNA.plus(left),
        right: UNA.plus(right),
    };
    let blocks = [block(9, 20), block(10, 20), block(11, 101), block(11, 100)];
    let segment = SegmentBuilder::data(Seq(5_000), UNA.plus(9), 0).sack(&blocks);
    let (_, reported) = take(&mut connection, &segment);
    assert_eq!(reported, [block(10, 20), block(11, 100)]);
}

#[test]
fn no_room_for_a_ninth_range() {
    let mut connection = with_sack();
    for index in 1..=8 {
        take(&mut connection, &data(5_000 + 10 * index, 2));
    }
    let before = connection;
    assert_eq!(arrive(&mut connection, CLOCK, &data(5_090, 2)), 30);
    assert_eq!(connection, before);
    assert_eq!(arrive(&mut connection, CLOCK, &data(5_082, 2)), 0);
    assert_eq!(arrive(&mut connection, CLOCK, &data(5_000, 10)), 0);
    assert_eq!(arrive(&mut connection, CLOCK, &data(5_090, 2)), 0);
}

#[test]
fn opening_refusals_in_order() {
    let number = |opening: &Opening, segment: &SegmentBuilder| {
        Connection::open(opening, &segment.build()).map(|_| ())
    };
    let shift_15 = Opening {
        shift: Some(15),
        ..opening()
    };
    let wide = Opening {
        window: 65_536,
        ..opening()
    };
    let fault = syn().options(&[9]);
    assert_eq!(number(&shift_15, &fault), Err(Refusal::OwnOffer));
    assert_eq!(number(&wide, &syn()), Err(Refusal::OwnOffer));
    assert_eq!(
        number(&opening(), &syn().flags(RST).options(&[8, 2])),
        Err(Refusal::OptionLength(Place(20)))
    );
    assert_eq!(
        number(&opening(), &syn().flags(SYN | RST)),
        Err(Refusal::NotAnOpeningSyn)
    );
    assert_eq!(
        number(&opening(), &syn().flags(ACK)),
        Err(Refusal::NotAnOpeningSyn)
    );
    let wrong_ack = SegmentBuilder::new(Seq(1), ISS, SYN | ACK);
    assert_eq!(
        number(&opening(), &wrong_ack),
        Err(Refusal::WrongOpeningAck)
    );
    assert_eq!(number(&opening(), &wrong_ack.flags(SYN)), Ok(()));
}

#[test]
fn an_opening_passes_on_places_and_counts() {
    let opened = |options: &[u8]| Connection::open(&opening(), &syn().options(options).build());
    let plain = opened(&[]).unwrap();
    assert_eq!(plain.skipped, 0);
    let skipping = opened(&[254, 2, 1, 254, 3, 0]).unwrap();
    assert_eq!(skipping.skipped, 2);
    assert_eq!(skipping.connection, plain.connection);
    assert_eq!(opened(&[1, 254, 1]), Err(Refusal::OptionBounds(Place(21))));
    assert_eq!(
        opened(&[254, 2, 3, 2]),
        Err(Refusal::OptionLength(Place(22)))
    );
    assert_eq!(
        opened(&[4, 2, 254, 2, 4, 2]),
        Err(Refusal::OptionRepeated(Place(24)))
    );
}

#[test]
fn an_arrival_passes_on_places() {
    let mut connection = with_timestamps();
    let before = connection;
    // Before E8 too.
    for clock in [CLOCK, CLOCK - 1] {
        let fault = data(5_000, 1).options(&[254, 2, 4, 2, 4, 2]).build();
        assert_eq!(
            connection.arrive(clock, &fault),
            Err(Refusal::OptionRepeated(Place(24)))
        );
    }
    assert_eq!(connection, before);
}

#[test]
fn every_verdict_has_its_count() {
    let unknown = |segment: SegmentBuilder, count| segment.options(&[254, 2].repeat(count));
    let stamped = |seq, value| data(seq, 1).timestamps(Stamp(value), Stamp(0));
    let acking = |ack| SegmentBuilder::data(Seq(5_000), ack, 0).timestamps(Stamp(100), Stamp(0));
    let segments = [
        (21, data(5_000, 1)),
        (22, stamped(5_000, 99)),
        (23, data(4_000, 1).flags(RST)),
        (24, stamped(4_000, 100)),
        (25, data(5_000, 1).flags(RST)),
        (26, data(5_001, 1).flags(RST)),
        (27, stamped(5_000, 100).flags(SYN)),
        (28, stamped(5_000, 100).flags(0)),
        (29, acking(UNA.plus(1))),
        (31, acking(UNA.minus(8_193))),
        (0, stamped(5_000, 100)),
    ];
    for (number, segment) in segments {
        for count in [0, 1, 15] {
            let segment = unknown(segment.clone(), count);
            let verdict = judged(&mut with_timestamps(), &segment);
            assert_eq!(verdict, (number, count as u8));
        }
    }
    let mut connection = with_sack();
    for index in 1..=8 {
        take(&mut connection, &data(5_000 + 10 * index, 2));
    }
    let ninth = unknown(data(5_090, 2), 20);
    assert_eq!(judged(&mut connection, &ninth), (30, 20));
}

#[test]
fn acknowledgment_refusals_in_order() {
    let mut connection = with_timestamps();
    let before = connection;
    let mut short = [7; 31];
    assert_eq!(
        connection.acknowledge(1, 2, 9_999, &mut short),
        Err(Refusal::ClockWentBack)
    );
    assert_eq!(
        connection.acknowledge(1, 2, CLOCK, &mut short),
        Err(Refusal::BufferTooShort)
    );
    assert_eq!((connection, short), (before, [7; 31]));
    assert_eq!(connection.acknowledge(1, 2, CLOCK, &mut [7; 32]), Ok(32));
}
