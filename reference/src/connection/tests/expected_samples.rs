//! N of a record's samples: by the octets outstanding before the ACK and by the peer's MSS.

use super::*;

/// The peer's SYN with timestamps and this MSS, or none.
fn syn_with(mss: Option<u16>) -> SegmentBuilder {
    let syn = syn().timestamps(Stamp(100), Stamp(0));
    match mss {
        Some(mss) => syn.mss(mss),
        None => syn,
    }
}

/// A record with timestamps in force, the widest send window, and so many octets outstanding.
fn sending(syn: &SegmentBuilder, outstanding: u32) -> Connection {
    let opening = Opening {
        timestamps: true,
        ..opening()
    };
    let mut connection = open(&opening, syn);
    connection.snd_wnd = u32::MAX;
    connection.note_sent(outstanding).unwrap();
    connection
}

/// A segment that acknowledges so many octets more, with an echo that gives this sample.
fn acking(connection: &Connection, octets: u32, round_trip: u32) -> SegmentBuilder {
    let echo = connection.stamp(CLOCK).minus(round_trip);
    SegmentBuilder::data(Seq(5_000), connection.snd_una.plus(octets), 0)
        .timestamps(Stamp(100), echo)
}

/// S and V after a first sample of 1,000 ms and one of 3,003 ms with this N.
fn after_two(expected: u32) -> (u64, u64) {
    let mut timer = Timer::default();
    for (round_trip, expected) in [(1_000, 1), (3_003, expected)] {
        timer.sample(Sample::new(round_trip, expected)).unwrap();
    }
    (timer.smoothed, timer.variation)
}

/// S and V after the same two samples in a record: the second comes with an ACK of so many of the octets outstanding.
fn after_two_takes(mss: Option<u16>, outstanding: u32, octets: u32) -> (u64, u64) {
    let mut connection = sending(&syn_with(mss), 1);
    let first = acking(&connection, 1, 1_000);
    take(&mut connection, &first);
    connection.snd_wnd = u32::MAX;
    connection.note_sent(outstanding).unwrap();
    let second = acking(&connection, octets, 3_003);
    take(&mut connection, &second);
    (connection.timer.smoothed, connection.timer.variation)
}

#[test]
fn the_peers_mss() {
    let cases = [
        (None, [(1_072, 1), (1_073, 2), (16_080, 15), (16_081, 16)]),
        (Some(0), [(128, 1), (129, 2), (1_920, 15), (1_921, 16)]),
        (Some(63), [(127, 1), (129, 2), (1_920, 15), (1_921, 16)]),
        (Some(64), [(128, 1), (129, 2), (1_920, 15), (1_921, 16)]),
        (Some(65), [(130, 1), (131, 2), (1_950, 15), (1_951, 16)]),
        (
            Some(65_535),
            [(131_070, 1), (131_071, 2), (1_966_051, 16), (1 << 31, 16)],
        ),
    ];
    for (mss, turns) in cases {
        for (outstanding, expected) in turns {
            let taken = after_two_takes(mss, outstanding, 1);
            assert_eq!(taken, after_two(expected), "{:?} {}", mss, outstanding);
        }
    }
}

#[test]
fn neither_what_the_ack_covers_nor_what_it_leaves() {
    // N = 5: S = 256,000 + 512,768/40 = 268,819.2, V = 128,000 + 384,768/20 = 147,238.4.
    for octets in [1, 700, 2_500, 4_300, 4_999, 5_000] {
        assert_eq!(after_two_takes(None, 5_000, octets), (268_819, 147_238));
    }
}

#[test]
fn the_first_sample_counts_whole() {
    for outstanding in [1, 60_000] {
        let mut connection = sending(&syn_with(None), outstanding);
        let first = acking(&connection, 1, 1_000);
        take(&mut connection, &first);
        let timer = connection.timer;
        assert_eq!((timer.smoothed, timer.variation), (256_000, 128_000));
    }
}

#[test]
fn a_later_mss_does_not_count() {
    let mut connection = sending(&syn_with(Some(1_460)), 10_000);
    for round_trip in [1_000, 3_003] {
        let segment = acking(&connection, 1, round_trip).mss(64);
        take(&mut connection, &segment);
    }
    // 9,999 octets are 3.4 times 2,920.
    let timer = connection.timer;
    assert_eq!((timer.smoothed, timer.variation), after_two(4));
}

#[test]
fn a_sample_above_the_limit_is_left_out() {
    let mut connection = sending(&syn_with(None), 60_000);
    for (round_trip, sampled) in [(600_001, false), (600_000, true)] {
        let segment = acking(&connection, 1, round_trip);
        take(&mut connection, &segment);
        assert_eq!(connection.timer.sampled, sampled);
    }
    let before = connection.timer;
    let segment = acking(&connection, 1, 600_001);
    take(&mut connection, &segment);
    assert_eq!(connection.timer, before);
}

#[test]
fn our_syn_counts_as_one() {
    let syn = syn_with(None).flags(SYN);
    for (sent, expected) in [(0, 1), (1_071, 1), (1_072, 2)] {
        let connection = sending(&syn, sent);
        let segment = acking(&connection, 1, 9).build();
        let segment = Segment::read(&segment).result.unwrap();
        let sample = connection.sample_of(CLOCK, &segment);
        assert_eq!(sample, Some(Sample::new(9, expected)));
    }
}
