//! Counts how often each call of a script gave each number, with the least and the most of the places of faulty
//! options, or of the counts of skipped ones, that came with it, and with the numbers of steps; the N of samples; and
//! what openings under the profile lacked.

use std::collections::{BTreeMap, BTreeSet};
use std::fmt::{self, Display};

use crate::connection::Connection;
use crate::play::{say_opened, Player, BAD_LINE};
use crate::script::{Call, Calls};
use crate::segment::Segment;
use crate::timer::{Sample, MAX_SAMPLE};

/// The calls that give numbers, and the numbers that each can give.
const POSSIBLE: [(&str, &[u8]); 9] = [
    ("read", &[0, 1, 2, 3, 4, 5, 6]),
    ("open", &[0, 1, 2, 3, 4, 5, 6, 9, 10, 11]),
    (
        "arrive",
        &[
            0, 1, 2, 3, 4, 5, 6, 8, 21, 22, 23, 24, 25, 26, 27, 28, 29, 30, 31,
        ],
    ),
    ("sent", &[0, 12]),
    ("window", &[0, 13]),
    ("acknowledge", &[0, 7, 8]),
    ("sample", &[0, 14]),
    ("refusal", &[0, 1, 2, 3, 4, 5, 6]),
    ("profile", &[0, 1, 2, 3, 4, 5, 6, 9, 10, 11, 17]),
];

/// The calls whose line has the place of an option at fault or a count of skipped options, and the fields behind it.
const PLACED: [(&str, usize); 4] = [("read", 1), ("open", 0), ("arrive", 0), ("profile", 0)];

/// What a call answered, as far as it is counted.
#[derive(Clone, Copy, Debug, PartialEq, Eq, PartialOrd, Ord)]
enum Outcome {
    /// The call gives no number.
    Plain,
    Closed,
    Number(u8),
}

const TAKEN: Outcome = Outcome::Number(0);
const REFUSED_SAMPLE: Outcome = Outcome::Number(14);

impl Display for Outcome {
    fn fmt(&self, f: &mut fmt::Formatter) -> fmt::Result {
        match self {
            Outcome::Plain => f.write_str("-"),
            Outcome::Closed => f.write_str("closed"),
            Outcome::Number(number) => number.fmt(f),
        }
    }
}

/// How often an outcome was given, the least and the most that the lines' field `where` held, and all numbers of steps.
#[derive(Default)]
struct Tally {
    count: u64,
    span: Option<(u8, u8)>,
    steps: BTreeSet<u8>,
}

impl Tally {
    fn note(&mut self, place_or_count: Option<u8>, steps: Option<u8>) {
        self.count += 1;
        self.steps.extend(steps);
        if let Some(value) = place_or_count {
            let (least, most) = self.span.unwrap_or((value, value));
            self.span = Some((least.min(value), most.max(value)));
        }
    }
}

/// How often each call gave each outcome.
#[derive(Default)]
pub struct Counts {
    counts: BTreeMap<(&'static str, Outcome), Tally>,
    /// How many takes fed a sample with each N to a timer that had one before.
    fed: BTreeMap<u32, u64>,
    /// How many samples with a good R the timer that stands by itself refused.
    refused_for_n: u64,
    /// How many openings under the profile lacked each of its demands.
    lacks: BTreeMap<u8, u64>,
    /// Whether the profile opened the record that is there now.
    under_profile: bool,
    /// How many segments were taken by records that the profile opened.
    taken_under_profile: u64,
}

impl Counts {
    /// Plays a script and counts its answers.
    pub fn of(script: &[u8]) -> Counts {
        let mut counts = Counts::default();
        let mut player = Player::default();
        let mut lines = String::new();
        for call in Calls::new(script) {
            match call {
                Ok(call) => {
                    let before = player.connection().copied();
                    lines.clear();
                    player.play(&call, &mut lines);
                    let outcome = outcome(&call, &lines);
                    let tally = counts.tally(name(&call), outcome);
                    tally.note(place_or_count(&call, &lines), steps(&call, &lines));
                    counts.note_sample(&call, outcome, before.as_ref());
                    counts.note_profile(&call, outcome, &lines);
                }
                Err(_) => {
                    let tally = counts.tally(BAD_LINE.trim_end(), Outcome::Plain);
                    tally.note(None, None);
                }
            }
        }
        counts
    }

    fn tally(&mut self, name: &'static str, outcome: Outcome) -> &mut Tally {
        self.counts.entry((name, outcome)).or_default()
    }

    fn note_sample(&mut self, call: &Call, outcome: Outcome, before: Option<&Connection>) {
        match *call {
            Call::Sample(sample) if outcome == REFUSED_SAMPLE => {
                self.refused_for_n += u64::from(sample.round_trip <= MAX_SAMPLE);
            }
            Call::Arrive { clock, segment } if outcome == TAKEN => {
                let fed = before.and_then(|before| later_sample(before, clock, segment));
                if let Some(sample) = fed {
                    *self.fed.entry(sample.expected).or_default() += 1;
                }
            }
            _ => {}
        }
    }

    fn note_profile(&mut self, call: &Call, outcome: Outcome, lines: &str) {
        match call {
            Call::Open { .. } | Call::OpenUnderProfile { .. } if say_opened(lines) => {
                self.under_profile = matches!(call, Call::OpenUnderProfile { .. });
            }
            Call::OpenUnderProfile { .. } => {
                // The lack is the last field but one.
                if let Some(lack) = field_from_end(lines, 1) {
                    *self.lacks.entry(lack).or_default() += 1;
                }
            }
            Call::Arrive { .. } if outcome == TAKEN => {
                self.taken_under_profile += u64::from(self.under_profile);
            }
            _ => {}
        }
    }

    /// How many openings under the profile lacked this demand.
    pub fn lack(&self, number: u8) -> u64 {
        self.lacks.get(&number).copied().unwrap_or(0)
    }

    /// How many segments were taken by records that the profile opened.
    pub fn taken_under_profile(&self) -> u64 {
        self.taken_under_profile
    }

    /// How many takes fed a sample with this N to a timer that had one before.
    pub fn fed(&self, expected: u32) -> u64 {
        self.fed.get(&expected).copied().unwrap_or(0)
    }

    /// How many samples with a good R the timer that stands by itself refused.
    pub fn refused_for_n(&self) -> u64 {
        self.refused_for_n
    }

    /// The least and the most of the places or counts that came with a number; none where none came.
    pub fn span(&self, name: &'static str, number: u8) -> Option<(u8, u8)> {
        let tally = self.counts.get(&(name, Outcome::Number(number)));
        tally.and_then(|tally| tally.span)
    }

    /// How often a call gave a number.
    pub fn count(&self, name: &'static str, number: u8) -> u64 {
        let tally = self.counts.get(&(name, Outcome::Number(number)));
        tally.map_or(0, |tally| tally.count)
    }

    /// The numbers of steps, ascending, with which reading gave a number.
    pub fn steps(&self, number: u8) -> impl Iterator<Item = u8> + '_ {
        let tally = self.counts.get(&("read", Outcome::Number(number)));
        tally.into_iter().flat_map(|tally| &tally.steps).copied()
    }

    /// The calls with the numbers that they can give but did not.
    pub fn never_reached(&self) -> Vec<(&'static str, u8)> {
        let pairs = POSSIBLE
            .iter()
            .flat_map(|&(name, numbers)| numbers.iter().map(move |&number| (name, number)));
        pairs
            .filter(|&(name, number)| !self.counts.contains_key(&(name, Outcome::Number(number))))
            .collect()
    }
}

impl Display for Counts {
    fn fmt(&self, f: &mut fmt::Formatter) -> fmt::Result {
        writeln!(
            f,
            "{:<16} {:>6} {:>9} {:>6} {:>6}",
            "call", "number", "count", "where", "steps"
        )?;
        for (&(name, outcome), tally) in &self.counts {
            writeln!(
                f,
                "{:<16} {:>6} {:>9} {:>6} {:>6}",
                name,
                outcome.to_string(),
                tally.count,
                joined(tally.span),
                joined(runs(&tally.steps)),
            )?;
        }
        writeln!(f, "later samples of takes by N: {}", by_key(&self.fed))?;
        writeln!(f, "samples refused for N alone: {}", self.refused_for_n)?;
        writeln!(f, "lacks under the profile: {}", by_key(&self.lacks))?;
        let taken = self.taken_under_profile;
        writeln!(f, "takes by records that the profile opened: {}", taken)?;
        let missing = self.never_reached();
        if missing.is_empty() {
            return writeln!(f, "never reached: none");
        }
        missing
            .iter()
            .try_for_each(|(name, number)| writeln!(f, "never reached: {} {}", name, number))
    }
}

/// Numbers that follow one another, as the least and the most of each run.
fn runs(numbers: &BTreeSet<u8>) -> Vec<(u8, u8)> {
    let mut runs: Vec<(u8, u8)> = Vec::new();
    for &number in numbers {
        match runs.last_mut() {
            Some((_, most)) if *most + 1 == number => *most = number,
            _ => runs.push((number, number)),
        }
    }
    runs
}

/// Spans as the table has them, `-` where there are none.
fn joined(spans: impl IntoIterator<Item = (u8, u8)>) -> String {
    let spans = spans.into_iter();
    let words = spans.map(|(least, most)| format!("{}-{}", least, most));
    listed(words, ",")
}

/// Each key with its count.
fn by_key<K: Display>(counts: &BTreeMap<K, u64>) -> String {
    let pairs = counts.iter();
    let words = pairs.map(|(key, count)| format!("{}: {}", key, count));
    listed(words, ", ")
}

/// Words one behind the other, `-` where there are none.
fn listed(words: impl Iterator<Item = String>, between: &str) -> String {
    let words: Vec<String> = words.collect();
    if words.is_empty() {
        return "-".to_owned();
    }
    words.join(between)
}

/// The sample that a taken segment fed to a timer that had one before: it is there that N counts.
fn later_sample(before: &Connection, clock: u64, segment: &[u8]) -> Option<Sample> {
    let segment = Segment::read(segment).result.ok()?;
    let sample = before.sample_of(clock, &segment)?;
    (before.timer.sampled && sample.is_allowed()).then_some(sample)
}

/// The name of a call in the table; the two distances have names of their own.
fn name(call: &Call) -> &'static str {
    match call {
        Call::Read { .. } => "read",
        Call::Find { .. } => "find",
        Call::Distance { .. } => "distance",
        Call::Open { .. } => "open",
        Call::Arrive { .. } => "arrive",
        Call::Sent { .. } => "sent",
        Call::Window { .. } => "window",
        Call::Acknowledge { .. } => "acknowledge",
        Call::Expire => "expire",
        Call::Timer => "timer",
        Call::Sample(_) => "sample",
        Call::Expiry => "expiry",
        Call::Refusal { .. } => "refusal",
        Call::DistanceFromC { .. } => "distance from C",
        Call::Milliseconds { .. } => "milliseconds",
        Call::OpenUnderProfile { .. } => "profile",
    }
}

fn outcome(call: &Call, lines: &str) -> Outcome {
    if lines == "closed\n" {
        return Outcome::Closed;
    }
    let gives_number = POSSIBLE.iter().any(|&(numbered, _)| numbered == name(call));
    let second_word = lines.split_ascii_whitespace().nth(1);
    match second_word.and_then(|word| word.parse().ok()) {
        Some(number) if gives_number => Outcome::Number(number),
        _ => Outcome::Plain,
    }
}

/// The field `where` of the first line, for the calls that have one.
fn place_or_count(call: &Call, lines: &str) -> Option<u8> {
    let &(_, behind) = PLACED.iter().find(|&&(placed, _)| placed == name(call))?;
    field_from_end(lines, behind)
}

/// The number of steps, which ends the line of a reading.
fn steps(call: &Call, lines: &str) -> Option<u8> {
    match call {
        Call::Read { .. } => field_from_end(lines, 0),
        _ => None,
    }
}

/// A field of the first line, with so many behind it.
fn field_from_end(lines: &str, behind: usize) -> Option<u8> {
    let first = lines.lines().next()?;
    first.rsplit(' ').nth(behind)?.parse().ok()
}

#[cfg(test)]
mod tests {
    use super::*;
    use crate::builder::SegmentBuilder;
    use crate::cases::{opening, stamped, syn, CLOCK, NEXT, RECENT, UNA};
    use crate::connection::Opening;
    use crate::serial::{Seq, Stamp};

    fn sample(round_trip: u32, expected: u32) -> Call<'static> {
        Call::Sample(Sample::new(round_trip, expected))
    }

    #[test]
    fn numbers_are_counted_by_call() {
        let mut script = Vec::new();
        Call::Sent { count: 1 }.encode(&mut script);
        for expected in [1, 16] {
            sample(7, expected).encode(&mut script);
        }
        Call::Distance { a: 0, b: 14 }.encode(&mut script);
        script.push(0);
        let table = Counts::of(&script).to_string();
        let rows: Vec<Vec<&str>> = table
            .lines()
            .map(|line| line.split_whitespace().collect())
            .collect();
        assert_eq!(rows[1], ["bad", "-", "1", "-", "-"]);
        assert_eq!(rows[2], ["distance", "-", "1", "-", "-"]);
        assert_eq!(rows[3], ["sample", "0", "2", "-", "-"]);
        assert_eq!(rows[4], ["sent", "closed", "1", "-", "-"]);
        assert!(table.contains("never reached: sample 14\n"));
        assert!(!table.contains("never reached: sample 0\n"));
    }

    #[test]
    fn samples_are_counted_by_n() {
        let mut script = Vec::new();
        for (round_trip, expected) in [(600_001, 0), (600_001, 1), (600_000, 0), (7, 17), (7, 16)] {
            sample(round_trip, expected).encode(&mut script);
        }
        let opening = Opening {
            timestamps: true,
            ..opening()
        };
        let segment = &syn().timestamps(RECENT, Stamp(0)).build();
        Call::Open { opening, segment }.encode(&mut script);
        Call::Sent { count: 2_000 }.encode(&mut script);
        // The first sample, one left out, one of a segment that is dropped, none, and two with N = 2 and 1.
        let acks = [
            (NEXT, 1, 9),
            (NEXT, 2, 600_001),
            (NEXT.minus(1), 3, 9),
            (NEXT, 2, 9),
            (NEXT, 999, 9),
            (NEXT, 1_000, 9),
        ];
        for (seq, acked, round_trip) in acks {
            let echo = Stamp::of_clock(CLOCK, 0).minus(round_trip);
            let segment = SegmentBuilder::data(seq, UNA.plus(acked), 0).timestamps(RECENT, echo);
            let segment = &segment.build();
            let clock = CLOCK;
            Call::Arrive { clock, segment }.encode(&mut script);
        }
        let counts = Counts::of(&script);
        assert_eq!((1..=16).map(|n| counts.fed(n)).sum::<u64>(), 2);
        assert_eq!((counts.fed(1), counts.fed(2)), (1, 1));
        assert_eq!(counts.refused_for_n(), 2);
        let table = counts.to_string();
        assert!(table.contains("\nlater samples of takes by N: 1: 1, 2: 1\n"));
        assert!(table.contains("\nsamples refused for N alone: 2\n"));
    }

    #[test]
    fn openings_under_the_profile_are_counted_by_what_they_lack() {
        let mut script = Vec::new();
        let opening = Opening {
            timestamps: true,
            ..opening()
        };
        let offered = syn().timestamps(RECENT, Stamp(0));
        let (without, low) = (&syn().build(), &offered.clone().mss(535).build());
        let segment = &offered.build();
        let arrive = Call::Arrive {
            clock: CLOCK,
            segment: &stamped(NEXT, 0).build(),
        };
        // The base's record takes one, the profile's takes two, and a refused opening leaves it.
        Call::Open { opening, segment }.encode(&mut script);
        arrive.encode(&mut script);
        for segment in [segment, without, without, low] {
            Call::OpenUnderProfile { opening, segment }.encode(&mut script);
        }
        arrive.encode(&mut script);
        arrive.encode(&mut script);
        let counts = Counts::of(&script);
        let given = [0, 17].map(|number| counts.count("profile", number));
        assert_eq!(given, [1, 3]);
        assert_eq!([1, 2, 3].map(|number| counts.lack(number)), [2, 0, 1]);
        assert_eq!(counts.taken_under_profile(), 2);
        let table = counts.to_string();
        assert!(table.contains("\nlacks under the profile: 1: 2, 3: 1\n"));
        assert!(table.contains("\ntakes by records that the profile opened: 2\n"));
    }

    #[test]
    fn places_and_counts_span_from_the_least_to_the_most_and_steps_are_all_there() {
        let mut script = Vec::new();
        let lists: [&[u8]; 5] = [
            &[254, 2, 254, 2],
            &[254, 2],
            &[1, 254],
            &[],
            &[1, 1, 254, 9],
        ];
        for options in lists {
            let segment = &SegmentBuilder::syn(Seq(1)).options(options).build();
            Call::Read { segment }.encode(&mut script);
        }
        Call::Read { segment: &[] }.encode(&mut script);
        let counts = Counts::of(&script);
        assert_eq!(counts.count("read", 4), 2);
        assert_eq!(counts.count("read", 5), 0);
        assert_eq!(counts.span("read", 0), Some((0, 2)));
        assert_eq!(counts.span("read", 4), Some((21, 22)));
        assert_eq!(counts.span("read", 1), None);
        assert_eq!(counts.span("open", 0), None);
        // Kind 0 fills up the options: 254, 254; 254, kind 0; none.
        assert!(counts.steps(0).eq([0, 2]));
        assert!(counts.steps(4).eq([2, 3]));
        assert!(counts.steps(1).eq([0]));
        assert!(counts.to_string().contains(" 0-2 0-0,2-2\n"));
    }
}
