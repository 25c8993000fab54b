//! Answers to small streams, each sum worked out beside the program.

use super::*;
use crate::builder::SegmentBuilder;
use crate::cases::{self, opening, syn, CLOCK, NEXT, UNA};
use crate::connection::Opening;
use crate::ranges::Range;
use crate::segment::{Segment, ACK, FIN, PSH};
use crate::serial::{Seq, Stamp};

/// The octets of an acknowledge call before its buffer.
const BEFORE_BUFFER: usize = 5 + 12;

fn script(calls: &[Call]) -> Vec<u8> {
    let mut script = Vec::new();
    for call in calls {
        call.encode(&mut script);
    }
    script
}

fn answers(mut stream: &[u8]) -> String {
    let mut output = Vec::new();
    bench(&mut stream, &mut output).unwrap();
    String::from_utf8(output).unwrap()
}

/// Opens a record at RCV.NXT 5000 with SACK in force and 100 octets sent.
fn opened() -> Vec<u8> {
    let opening = Opening {
        sack: true,
        ..opening()
    };
    let segment = &syn().sack_permitted().build();
    script(&[Call::Open { opening, segment }, Call::Sent { count: 100 }])
}

fn arrivals(segments: &[SegmentBuilder]) -> Vec<u8> {
    let mut calls = Vec::new();
    for segment in segments {
        let segment = &segment.build();
        let clock = CLOCK;
        Call::Arrive { clock, segment }.encode(&mut calls);
    }
    calls
}

fn acknowledgment(buffer: &[u8]) -> Vec<u8> {
    script(&[Call::Acknowledge {
        source: 1,
        destination: 2,
        clock: CLOCK,
        buffer,
    }])
}

fn data(seq: u32, length: usize) -> SegmentBuilder {
    cases::data(Seq(seq), length)
}

fn range(left: Seq, right: Seq) -> Range {
    Range { left, right }
}

#[test]
fn readings() {
    let segment = data(7_000, 3)
        .flags(ACK | PSH)
        .urgent(9)
        .mss(1_460)
        .scale(7)
        .sack_permitted()
        .timestamps(Stamp(30), Stamp(40))
        .sack(&[range(Seq(100), Seq(200))])
        .build();
    let unknown = data(7_000, 0).options(&[99, 2, 1, 98, 3, 0, 0, 0]).build();
    let repeated = data(7_000, 0).options(&[99, 2, 4, 2, 1, 4, 2, 0]).build();
    let measured = script(&[
        Call::Read { segment: &segment },
        Call::Read { segment: &[0; 19] },
        Call::Read { segment: &[0; 20] },
        Call::Read { segment: &unknown },
        Call::Read { segment: &repeated },
    ]);
    let header = 12_345 + 443 + 7_000 + 1_001 + 2 + 8_192 + 9;
    let options = 1_460 + 7 + 1 + 30 + 40 + 100 + 200;
    let with_unknown = 12_345 + 443 + 7_000 + 1_001 + 1 + 8_192 + 28 + 2;
    let steps = 6 + 4 + 4;
    let sum = header + options + 52 + 3 + 1 + 3 + with_unknown + (6 + 25) + steps;
    let expected = format!("{}\n{}\n", sum, 2 * sum);
    assert_eq!(answers(&stream(&[], &measured, &[1, 2])), expected);
}

#[test]
fn arrivals_on_a_record_that_starts_anew_each_round() {
    let blocks = [
        range(UNA.plus(10), UNA.plus(20)),
        range(UNA.plus(10), UNA.plus(101)),
    ];
    let measured = arrivals(&[
        data(5_000, 10).options(&[99, 2, 0, 0]),
        data(5_020, 5),
        data(5_010, 4).flags(ACK | FIN),
        data(5_015, 0).sack(&blocks),
        data(5_015, 1).flags(PSH).options(&[99, 2, 99, 2]),
        SegmentBuilder::data(Seq(5_015), UNA.plus(1), 0).options(&[2, 3, 0, 0]),
    ]);
    let calls = (10 + 1) + (10 + 5) + (5 + 1) + (1_011 + 1_021) + (28 + 2) + (5 + 20);
    let sum = calls + 5_015 + 1_001 + 1_000;
    let expected = format!("{}\n{}\n0\n{}\n", sum, 3 * sum, sum);
    assert_eq!(
        answers(&stream(&opened(), &measured, &[1, 3, 0, 1])),
        expected
    );
}

#[test]
fn the_record_after_the_last_call() {
    let opening = Opening {
        timestamps: true,
        ..opening()
    };
    let segment = &syn().timestamps(Stamp(100), Stamp(0)).build();
    let prepared = script(&[Call::Open { opening, segment }, Call::Sent { count: 9 }]);
    let arrival = SegmentBuilder::data(NEXT, UNA.plus(9), 1).timestamps(Stamp(101), Stamp(9_000));
    let sum = 1 + 5_001 + 1_010 + 101 + 3_004;
    let stream = stream(&prepared, &arrivals(&[arrival]), &[1]);
    assert_eq!(answers(&stream), format!("{}\n", sum));
}

#[test]
fn acknowledgments() {
    let prepared = [opened(), arrivals(&[data(5_100, 10)])].concat();
    let measured = [acknowledgment(&[0; 32]), acknowledgment(&[0; 31])].concat();
    let sum = 32 + 7 + 5_000 + 1_001 + 1_000;
    let expected = format!("{}\n{}\n", sum, 2 * sum);
    assert_eq!(answers(&stream(&prepared, &measured, &[1, 2])), expected);
}

#[test]
fn acknowledgments_are_written_in_place() {
    let calls = [acknowledgment(&[0xee; 24]), acknowledgment(&[0xee; 20])].concat();
    let mut measured = Measured::new(prepare(&opened()).unwrap(), calls.clone());
    measured.take(1);
    let written = |start: usize| {
        let read = Segment::read(&measured.calls[start..start + 20]);
        read.result.unwrap()
    };
    let second = BEFORE_BUFFER + 24 + BEFORE_BUFFER;
    assert_eq!(written(BEFORE_BUFFER).ack, NEXT);
    assert_eq!(written(second).seq, UNA.plus(100));
    let between = BEFORE_BUFFER + 20..second;
    assert_eq!(measured.calls[between.clone()], calls[between]);
}

#[test]
fn nothing_to_measure_answers_0() {
    let read = script(&[Call::Read { segment: &[] }]);
    let other = script(&[Call::Expire]);
    let mixed = [read.clone(), other.clone()].concat();
    let cut = &read[..4];
    for measured in [&[], &other[..], &mixed, cut] {
        assert_eq!(answers(&stream(&opened(), measured, &[1, 9])), "0\n0\n");
    }
    // Neither call before an opening does anything.
    let closed = [
        arrivals(&[data(5_000, 1)]),
        script(&[Call::Sent { count: 1 }]),
    ]
    .concat();
    for measured in [arrivals(&[data(5_000, 1)]), acknowledgment(&[0; 20])] {
        assert_eq!(answers(&stream(&closed, &measured, &[7])), "0\n");
    }
}

#[test]
fn a_refused_opening_leaves_the_record() {
    let refused = script(&[Call::Open {
        opening: opening(),
        segment: &[],
    }]);
    let prepared = [opened(), refused].concat();
    let stream = stream(&prepared, &arrivals(&[data(5_000, 1)]), &[1]);
    assert_eq!(answers(&stream), format!("{}\n", 1 + 5_001 + 1_001 + 1_000));
}

#[test]
fn bad_streams() {
    let expiry = script(&[Call::Expire]);
    assert_eq!(answers(&stream(&expiry, &[], &[1])), "bad\n");
    assert_eq!(answers(&stream(&opened()[..9], &[], &[1])), "bad\n");
    let whole = stream(&opened(), &arrivals(&[data(5_000, 1)]), &[]);
    for length in 0..whole.len() {
        assert_eq!(answers(&whole[..length]), "bad\n");
    }
    assert_eq!(answers(&whole), "");
}

#[test]
fn the_most_octets_of_a_stream() {
    let most = stream(&[], &[0; MAX_STREAM], &[1]);
    assert_eq!(answers(&most), "0\n");
    assert_eq!(answers(&stream(&[], &[0; MAX_STREAM + 1], &[1])), "bad\n");
    let more = stream(&opened(), &[0; MAX_STREAM], &[1]);
    assert_eq!(answers(&more), "bad\n");
    assert_eq!(answers(&[0xff; 1_000]), "bad\n");
}

#[test]
fn an_order_cut_short_ends_quietly() {
    let mut stream = stream(&opened(), &arrivals(&[data(5_000, 1)]), &[0]);
    for octet in [0, 0, 1] {
        stream.push(octet);
        assert_eq!(answers(&stream), "0\n");
    }
}
