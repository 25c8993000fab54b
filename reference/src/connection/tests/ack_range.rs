//! Verdict 31 of RFC 5961: how far an ACK may lie before SND.UNA, and the largest send window.

use super::*;

/// The peer's SYN with this window; it acknowledges our ISS, one before this SND.UNA.
fn syn_of(una: Seq, window: u16) -> SegmentBuilder {
    SegmentBuilder::new(Seq(4_999), una, SYN | ACK).window(window)
}

/// A record with SND.UNA = SND.NXT whose only send window is the one of its opening.
fn opened_at(una: Seq, window: u16) -> Connection {
    let opening = Opening {
        iss: una.minus(1),
        ..opening()
    };
    open(&opening, &syn_of(una, window))
}

const FIRST: Seq = Seq(101);

/// SND.UNA = SND.NXT = 101, maximum 50.
fn opened() -> Connection {
    opened_at(FIRST, 50)
}

/// The same with the window scaled by 2^shift after the opening.
fn opened_with_shift(shift: u8) -> Connection {
    let opening = Opening {
        iss: FIRST.minus(1),
        shift: Some(shift),
        ..opening()
    };
    open(&opening, &syn_of(FIRST, 50).scale(shift))
}

/// A segment at RCV.NXT without payload.
fn acking(ack: Seq, window: u16) -> SegmentBuilder {
    SegmentBuilder::data(Seq(5_000), ack, 0).window(window)
}

/// The number that an ACK gets at a copy of the record.
fn number(connection: &Connection, ack: Seq) -> u8 {
    let mut copy = *connection;
    arrive(&mut copy, CLOCK, &acking(ack, 7))
}

/// Whether ACKs are taken exactly up to so many octets before SND.UNA.
fn reaches(connection: &Connection, octets: u32) -> bool {
    let una = connection.snd_una;
    let numbers = [una.minus(octets), una.minus(octets + 1)].map(|ack| number(connection, ack));
    connection.max_snd_wnd == octets && numbers == [0, 31]
}

#[test]
fn edges() {
    let connection = opened();
    let numbers = [
        (Seq(102), 29),
        (Seq(101), 0),
        (Seq(100), 0),
        (Seq(51), 0),
        (Seq(50), 31),
        (FIRST.minus(HALF - 1), 31),
        (FIRST.minus(HALF), 31),
        (FIRST.minus(HALF + 1), 29),
    ];
    for (ack, expected) in numbers {
        assert_eq!(number(&connection, ack), expected, "{:?}", ack);
    }
}

#[test]
fn an_ack_is_sent_back() {
    let segment = acking(Seq(50), 7).build();
    let judged = opened().arrive(CLOCK, &segment).unwrap();
    let dropped = Rejection::DropWithAck(Reason::AckTooOld);
    assert_eq!(judged.verdict, Verdict::Reject(dropped));
}

#[test]
fn the_ack_of_what_is_not_sent_comes_first() {
    let mut connection = opened();
    connection.note_sent(10).unwrap();
    assert_eq!(number(&connection, FIRST.minus(HALF)), 29);
    assert_eq!(number(&connection, FIRST.minus(HALF - 9)), 29);
    // 2^31 from SND.NXT.
    assert_eq!(number(&connection, FIRST.minus(HALF - 10)), 31);
    assert!(reaches(&connection, 50));
}

#[test]
fn across_the_number_0() {
    for una in [0, 5, 49, 50, 51, u32::MAX, HALF] {
        assert!(reaches(&opened_at(Seq(una), 50), 50), "{}", una);
    }
}

#[test]
fn the_opening_value_counts() {
    for window in [0, 1, 50, u16::MAX] {
        assert!(reaches(&opened_at(FIRST, window), window.into()));
    }
    let mut connection = opened();
    take(&mut connection, &acking(FIRST, 20));
    assert_eq!(connection.snd_wnd, 20);
    assert!(reaches(&connection, 50));
    // Our SYN is not acknowledged yet.
    let syn = syn_of(Seq(0), 50).flags(SYN);
    assert!(reaches(&open(&opening(), &syn), 50));
}

#[test]
fn a_window_that_falls_leaves_the_maximum() {
    let mut connection = opened();
    for (window, largest) in [(80, 80), (10, 80), (0, 80), (79, 80), (81, 81), (1, 81)] {
        take(&mut connection, &acking(FIRST, window));
        assert_eq!(connection.snd_wnd, u32::from(window));
        assert!(reaches(&connection, largest));
    }
}

#[test]
fn a_segment_is_judged_by_the_maximum_before_it() {
    let mut connection = opened();
    let before = connection;
    assert_eq!(arrive(&mut connection, CLOCK, &acking(Seq(50), 51)), 31);
    assert_eq!(connection, before);
    // Taken, but neither new nor equal to SND.UNA, so it brings no window.
    take(&mut connection, &acking(Seq(51), 51));
    assert_eq!(connection, before);
    take(&mut connection, &acking(Seq(101), 51));
    assert!(reaches(&connection, 51));
}

#[test]
fn the_limit_moves_with_una() {
    let mut connection = opened();
    connection.note_sent(10).unwrap();
    take(&mut connection, &acking(Seq(111), 0));
    assert_eq!(connection.snd_una, Seq(111));
    assert!(reaches(&connection, 50));
}

#[test]
fn a_window_that_is_not_taken_over_does_not_count() {
    let mut connection = opened();
    connection.snd_wl1 = Seq(5_001);
    take(&mut connection, &acking(FIRST, 60));
    assert!(reaches(&connection, 50));
    for (number, segment) in [
        (24, SegmentBuilder::data(Seq(4_000), FIRST, 1).window(60)),
        (27, acking(FIRST, 60).flags(SYN | ACK)),
        (28, acking(FIRST, 60).flags(0)),
        (29, acking(Seq(102), 60)),
    ] {
        assert_eq!(arrive(&mut connection, CLOCK, &segment), number);
        assert!(reaches(&connection, 50));
    }
}

#[test]
fn a_scaled_window_raises_it_to_the_scaled_value() {
    let mut connection = opened_with_shift(3);
    assert!(reaches(&connection, 50));
    take(&mut connection, &acking(FIRST, 50));
    assert!(reaches(&connection, 400));
    let mut connection = opened_with_shift(14);
    take(&mut connection, &acking(FIRST, u16::MAX));
    assert!(reaches(&connection, 1_073_725_440));
    assert_eq!(number(&connection, FIRST.minus(HALF)), 31);
    assert_eq!(number(&connection, FIRST.minus(HALF + 1)), 29);
}

#[test]
fn too_old_comes_before_no_room() {
    let mut connection = opened();
    for index in 1..=8 {
        let segment = SegmentBuilder::data(Seq(5_000 + 10 * index), FIRST, 2);
        take(&mut connection, &segment.window(50));
    }
    let ninth = |ack| SegmentBuilder::data(Seq(5_090), ack, 2);
    let before = connection;
    assert_eq!(arrive(&mut connection, CLOCK, &ninth(Seq(50))), 31);
    assert_eq!(arrive(&mut connection, CLOCK, &ninth(Seq(51))), 30);
    assert_eq!(connection, before);
}

#[test]
fn flags_come_before_it() {
    let flagged = |seq, flags| SegmentBuilder::new(Seq(seq), Seq(50), flags);
    for (number, segment) in [
        (25, flagged(5_000, RST | ACK)),
        (26, flagged(5_001, RST | ACK)),
        (27, flagged(5_000, SYN | ACK)),
        (28, flagged(5_000, FIN)),
        (31, flagged(5_000, FIN | ACK)),
    ] {
        assert_eq!(arrive(&mut opened(), CLOCK, &segment), number);
    }
}

#[test]
fn other_calls_leave_the_maximum() {
    let mut connection = opened();
    take(&mut connection, &acking(FIRST, 20));
    connection.note_sent(20).unwrap();
    connection.open_window(65_535).unwrap();
    connection.acknowledge(1, 2, CLOCK, &mut [0; 20]).unwrap();
    connection.expire();
    assert!(reaches(&connection, 50));
}
