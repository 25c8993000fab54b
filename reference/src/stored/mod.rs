//! The stored script: the examples of RFC 2018, the marked cases, both sides of every limit, random calls; and the stored stream.

mod ack_range;
mod acknowledging;
mod answering;
mod calls;
mod edges;
mod faults;
mod fields;
mod finding;
mod holding;
mod judging;
mod marked;
mod numbers;
mod offering;
mod opening;
mod profile;
mod ranges;
mod reading;
mod records;
mod refusing;
mod rfc2018;
mod send_side;
mod sending;
mod skipped;
mod steps;
mod stream;
mod taking;
mod timers;
mod unopened;
mod verdicts;
mod weighing;
mod writing;

use crate::generate::Generator;
use crate::random::Random;

use self::calls::CallList;

pub use self::stream::stream;

const RANDOM_CALLS: usize = 1_200;
const RANDOM_SEED: u64 = 7_323;

/// A call of two numbers that is one octet short.
const BAD_CALL: [u8; 12] = [3, 0, 0, 0, 7, 0, 0, 0, 0, 0, 0, 0];

/// The stored script; it is always the same.
pub fn script() -> Vec<u8> {
    let mut calls = CallList::default();
    // Calls on no record can only come before the first opening.
    unopened::add(&mut calls);
    rfc2018::add(&mut calls);
    marked::add(&mut calls);
    numbers::add(&mut calls);
    reading::add(&mut calls);
    fields::add(&mut calls);
    refusing::add(&mut calls);
    faults::add(&mut calls);
    skipped::add(&mut calls);
    steps::add(&mut calls);
    finding::add(&mut calls);
    offering::add(&mut calls);
    opening::add(&mut calls);
    profile::add(&mut calls);
    verdicts::add(&mut calls);
    judging::add(&mut calls);
    taking::add(&mut calls);
    answering::add(&mut calls);
    edges::add(&mut calls);
    ranges::add(&mut calls);
    holding::add(&mut calls);
    acknowledging::add(&mut calls);
    writing::add(&mut calls);
    sending::add(&mut calls);
    send_side::add(&mut calls);
    ack_range::add(&mut calls);
    timers::add(&mut calls);
    weighing::add(&mut calls);
    let mut script = calls.into_script();
    script.extend(random_calls());
    script.extend(BAD_CALL);
    script
}

fn random_calls() -> Vec<u8> {
    let mut generator = Generator::new(Random::new(RANDOM_SEED), false);
    for _ in 0..RANDOM_CALLS {
        generator.add_call();
    }
    generator.into_script()
}

#[cfg(test)]
mod tests {
    use super::*;
    use crate::count::Counts;
    use crate::play::play;
    use crate::timer::MAX_EXPECTED;

    #[test]
    fn every_number_is_reached_by_every_call_that_can_give_it() {
        let counts = Counts::of(&script());
        // One more segment of 65,536 octets would take the script past its size.
        assert_eq!(counts.never_reached(), [("profile", 2)]);
        for lack in 1..=3 {
            assert!(counts.lack(lack) > 0, "{}", lack);
        }
    }

    #[test]
    fn places_and_counts_are_reached_at_their_limits_by_every_call_that_gives_them() {
        let counts = Counts::of(&script());
        for name in ["read", "open", "arrive"] {
            assert_eq!(counts.span(name, 0), Some((0, 20)));
            assert_eq!(counts.span(name, 4), Some((20, 59)));
            assert_eq!(counts.span(name, 5), Some((20, 58)));
            assert_eq!(counts.span(name, 6), Some((22, 58)));
        }
        // Timestamps leave room for 15 unknown options.
        assert_eq!(counts.span("profile", 0), Some((0, 15)));
        assert_eq!(counts.span("profile", 4), Some((20, 59)));
        assert_eq!(counts.span("profile", 5), Some((20, 58)));
        assert_eq!(counts.span("profile", 6), Some((22, 58)));
        assert_eq!(counts.span("profile", 17), None);
        for number in 21..=31 {
            assert!(matches!(counts.span("arrive", number), Some((0, 1..))));
        }
    }

    #[test]
    fn every_n_is_reached_in_records_and_each_limit_of_a_sample_by_itself() {
        let counts = Counts::of(&script());
        for expected in 1..=MAX_EXPECTED {
            assert!(counts.fed(expected) > 0, "{}", expected);
        }
        let refused = counts.count("sample", 14);
        assert!((1..refused).contains(&counts.refused_for_n()));
    }

    #[test]
    fn every_number_of_steps_is_reached() {
        let counts = Counts::of(&script());
        let spans = [
            (0, 0..=40),
            (1, 0..=0),
            (2, 0..=0),
            (3, 0..=0),
            (4, 1..=40),
            // The last option has a length octet; of E6 the first takes two octets.
            (5, 1..=39),
            (6, 2..=38),
        ];
        for (number, steps) in spans {
            assert!(counts.steps(number).eq(steps), "{}", number);
        }
    }

    #[test]
    fn the_last_line_alone_is_bad() {
        let lines = play(&script());
        assert!(lines.ends_with("\nbad\n"));
        assert_eq!(lines.lines().filter(|&line| line == "bad").count(), 1);
    }

    #[test]
    fn every_call_on_no_record_is_closed() {
        let lines = play(&script());
        let closed = lines.lines().filter(|&line| line == "closed").count();
        assert_eq!(closed, 10);
        for refused in ["open 9 -", "profile 9 - -", "profile 17 1 -"] {
            assert!(lines.contains(&format!("{}\nrecord -\n", refused)));
        }
    }

    #[test]
    fn sizes() {
        let script = script();
        assert!((150_000..700_000).contains(&script.len()));
        assert!(play(&script).len() < 1_500_000);
    }
}
