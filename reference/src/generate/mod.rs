//! Random scripts aimed at edges. The script is played as it is made, so that calls fit the record.

mod ack_run;
mod arrival;
mod clock;
mod damage;
mod edges;
mod opening;
mod profile;
mod steps;
mod unknown;

use crate::connection::Connection;
use crate::play::{say_opened, Player};
use crate::random::Random;
use crate::script::{Call, MAX_BODY};
use crate::serial::HALF;
use crate::timer::{Sample, LEAST_MSS, MAX_EXPECTED, MAX_SAMPLE, MAX_SMOOTHED, ROUNDING_ALLOWANCE};

use self::ack_run::AckRun;
use self::clock::Clock;
use self::edges::{beside, serial_near};
use self::opening::PeerOffers;

/// How many recent segments are kept to be sent again.
const RECENT_SEGMENTS: usize = 16;

/// One segment in so many is about as long as a segment can be, by the calls that bring it.
const LONG_ARRIVAL_RATE: u64 = 1_500;
const LONG_SYN_RATE: u64 = 200;
const LONG_PROFILE_SYN_RATE: u64 = 25;
const LONG_FREE_RATE: u64 = 400;

/// Calls that are unknown, too long, or one octet short.
const BAD_CALLS: [&[u8]; 15] = [
    &[0, 0, 0, 0, 0],
    &[255, 0, 0, 0, 0],
    &[200, 0, 0, 0, 1, 0],
    &[1, 0, 1, 0, 0x81],
    &[1, 255, 255, 255, 255],
    &[2, 0, 0, 0, 0],
    &[2, 0, 0, 0, 3, 3, 8, 8],
    &[3, 0, 0, 0, 7, 0, 0, 0, 0, 0, 0, 0],
    &[5, 0, 0, 0, 7, 0, 0, 0, 0, 0, 0, 0],
    &[6, 0, 0, 0, 3, 0, 0, 0],
    &[7, 0, 0, 0, 0],
    &[8, 0, 0, 0, 11, 0, 0, 0, 0, 0, 0, 0, 0, 0, 0, 0],
    &[11, 0, 0, 0, 7, 0, 0, 0, 0, 0, 0, 0],
    &[15, 0, 0, 0, 15, 0, 0, 0, 0, 0, 0, 0, 0, 0, 0, 0, 0, 0, 0, 0],
    &[
        19, 0, 0, 0, 21, 0, 0, 0, 0, 0, 0, 0, 0, 0, 0, 0, 0, 0, 0, 0, 0, 0, 0, 0, 0, 0,
    ],
];

/// How the segments of a connection lie; chosen anew at each opening.
#[derive(Clone, Copy, PartialEq, Eq)]
enum Pattern {
    /// Most segments follow one another.
    InOrder,
    /// Most segments leave a hole, so that ranges fill up.
    Holes,
    /// Both.
    Mixed,
}

/// Makes a random script call by call.
pub struct Generator {
    random: Random,
    player: Player,
    clock: Clock,
    pattern: Pattern,
    ack_run: Option<AckRun>,
    recent: Vec<Vec<u8>>,
    long_bodies: bool,
    script: Vec<u8>,
    lines: String,
}

impl Generator {
    /// A generator whose bodies reach up to the limits of a segment only where `long_bodies` says so.
    pub fn new(random: Random, long_bodies: bool) -> Generator {
        Generator {
            random,
            player: Player::default(),
            clock: Clock::default(),
            pattern: Pattern::Mixed,
            ack_run: None,
            recent: Vec::new(),
            long_bodies,
            script: Vec::new(),
            lines: String::new(),
        }
    }

    /// The script made so far.
    pub fn into_script(self) -> Vec<u8> {
        self.script
    }

    /// Appends one random call.
    pub fn add_call(&mut self) {
        match (self.player.connection().copied(), self.ack_run.take()) {
            (Some(connection), Some(run)) => self.continue_ack_run(&connection, run),
            (Some(connection), None) => self.add_call_on(&connection),
            (None, _) => self.add_call_unopened(),
        }
    }

    /// Appends a call that cannot be decoded.
    pub fn add_bad_call(&mut self) {
        let bad = self.random.pick(&BAD_CALLS);
        self.script.extend_from_slice(bad);
        if self.random.percent(50) {
            // What follows a bad call must not be played.
            Call::Timer.encode(&mut self.script);
        }
    }

    /// Appends a call and cuts the script inside it.
    pub fn add_cut_call(&mut self) {
        let start = self.script.len();
        self.add_call();
        let length = self.script.len() - start;
        let kept = 1 + self.random.index(length - 1);
        self.script.truncate(start + kept);
    }

    fn wants_long_body(&mut self, rate: u64) -> bool {
        self.long_bodies && self.random.one_in(rate)
    }

    fn push(&mut self, call: &Call) {
        call.encode(&mut self.script);
        self.lines.clear();
        self.player.play(call, &mut self.lines);
    }

    fn add_call_unopened(&mut self) {
        match self.random.below(120) {
            0..=59 => self.add_open(),
            60..=63 => self.push(&Call::Sent { count: 0 }),
            64..=67 => self.push(&Call::Window { window: 9 }),
            68..=71 => self.push(&Call::Expire),
            72..=75 => self.push(&Call::Arrive {
                clock: 0,
                segment: &[0; 20],
            }),
            76..=79 => self.push(&Call::Acknowledge {
                source: 1,
                destination: 2,
                clock: 0,
                buffer: &[0; 20],
            }),
            80..=99 => self.add_open_under_profile(),
            _ => self.add_free_call(),
        }
    }

    fn add_call_on(&mut self, connection: &Connection) {
        match self.random.below(1_050) {
            0..=579 => self.add_arrive(connection),
            580..=669 => self.add_acknowledge(connection),
            670..=759 => self.add_sent(connection),
            760..=799 => self.add_window(connection),
            800..=819 => self.push(&Call::Expire),
            // Ranges need time to fill up.
            820..=834 if self.pattern != Pattern::Holes => self.add_open(),
            835..=849 => self.add_open(),
            850..=855 if ack_run::is_possible(connection) => self.begin_ack_run(connection),
            1_000..=1_039 if self.pattern != Pattern::Holes => self.add_open_under_profile(),
            1_040..=1_049 => self.add_open_under_profile(),
            _ => self.add_free_call(),
        }
    }

    fn add_open(&mut self) {
        let opening = self.random_opening();
        let offers = PeerOffers::random(&mut self.random);
        let segment = self.random_syn(&opening, &offers, LONG_SYN_RATE);
        let call = Call::Open {
            opening,
            segment: &segment,
        };
        self.push_opening(&call, opening.clock);
    }

    /// Makes an opening; a record that it opens starts anew.
    fn push_opening(&mut self, call: &Call, clock: u64) {
        self.push(call);
        if say_opened(&self.lines) {
            self.clock.set(clock);
            self.recent.clear();
            self.pattern = self
                .random
                .pick(&[Pattern::InOrder, Pattern::Holes, Pattern::Mixed]);
        }
    }

    fn add_arrive(&mut self, connection: &Connection) {
        let clock = self.clock.next(&mut self.random, connection);
        let segment = if !self.recent.is_empty() && self.random.percent(6) {
            let index = self.random.index(self.recent.len());
            self.recent[index].clone()
        } else {
            self.random_arrival(connection, clock)
        };
        self.push(&Call::Arrive {
            clock,
            segment: &segment,
        });
        if segment.len() < 2_000 {
            self.recent.push(segment);
        }
        if self.recent.len() > RECENT_SEGMENTS {
            self.recent.remove(0);
        }
    }

    fn add_acknowledge(&mut self, connection: &Connection) {
        let exact = connection.acknowledgment_length();
        let length = match self.random.below(10) {
            0 => exact - 1,
            1 => exact + 1,
            2 => self.random.index(exact),
            3 => exact + self.random.index(40),
            _ => exact,
        };
        let clock = self.clock.next(&mut self.random, connection);
        let buffer = self.random.octets(length);
        let (source, destination) = (self.random.next_u16(), self.random.next_u16());
        self.push(&Call::Acknowledge {
            source,
            destination,
            clock,
            buffer: &buffer,
        });
    }

    fn add_sent(&mut self, connection: &Connection) {
        let room = connection.snd_wnd.saturating_sub(connection.outstanding());
        // 2^31 above WL2 is where the order of WL2 and ACK turns.
        let to_half = connection.snd_nxt.offset_of(connection.snd_wl2.plus(HALF));
        let count = match self.random.below(20) {
            0 => room.wrapping_add(1),
            1 => beside(&mut self.random, room),
            2 => self.random.next_u32(),
            3 => self.random.pick(&[0, u32::MAX, HALF]),
            4 if to_half <= room => to_half,
            4..=6 => room,
            7..=9 => self.random.below_u32(room.min(2_000) + 1),
            _ => to_a_turn_of_n(&mut self.random, connection).min(room),
        };
        self.push(&Call::Sent { count });
    }

    fn add_window(&mut self, connection: &Connection) {
        let (now, most) = (connection.rcv_wnd, connection.max_rcv_wnd());
        let window = match self.random.below(10) {
            0 => now.wrapping_sub(1),
            1 => now,
            2 => most,
            3 => most + 1,
            4 => self.random.next_u32(),
            5 => self.random.pick(&[0, u32::MAX, 65_535, 65_536]),
            6 => now + self.random.below_u32(most - now + 1),
            _ => (now + 1 + self.random.below_u32(200)).min(most),
        };
        self.push(&Call::Window { window });
    }

    /// A call that no record is needed for.
    fn add_free_call(&mut self) {
        match self.random.below(160) {
            0..=34 => self.add_segment_call(),
            35..=64 => self.add_find(),
            65..=84 => self.add_distance(),
            85..=92 => self.push(&Call::Timer),
            93..=127 => self.add_sample(),
            128..=139 => self.push(&Call::Expiry),
            _ => self.add_milliseconds(),
        }
    }

    fn add_segment_call(&mut self) {
        let mut segment = self.random_free_segment();
        if self.wants_long_body(LONG_FREE_RATE) {
            segment.resize(MAX_BODY, 0);
        }
        if self.random.percent(50) {
            self.push(&Call::Read { segment: &segment });
        } else {
            self.push(&Call::Refusal { segment: &segment });
        }
    }

    fn add_find(&mut self) {
        let segment = self.random_free_segment();
        let count = self.random.pick(&[0, 1, 1, 2, 3, 6, 255]);
        let room = MAX_BODY - 1 - segment.len();
        let kinds: Vec<u8> = (0..room.min(count))
            .map(|_| damage::random_kind(&mut self.random))
            .collect();
        self.push(&Call::Find {
            kinds: &kinds,
            segment: &segment,
        });
    }

    fn add_distance(&mut self) {
        let a = self.random.next_u32();
        let a = self.random.pick(&[0, u32::MAX, HALF, a]);
        let b = serial_near(&mut self.random, a);
        if self.random.percent(50) {
            self.push(&Call::Distance { a, b });
        } else {
            self.push(&Call::DistanceFromC { a, b });
        }
    }

    fn add_sample(&mut self) {
        let sample = Sample {
            round_trip: edges::round_trip(&mut self.random),
            expected: edges::expected(&mut self.random),
        };
        self.push(&Call::Sample(sample));
    }

    fn add_milliseconds(&mut self) {
        let smoothed = self.random_smoothed();
        let variation = match self.random.below(3) {
            0 => self.random.below(70),
            1 => self.random.below(4_000_000),
            _ => self.random_smoothed(),
        };
        self.push(&Call::Milliseconds {
            smoothed,
            variation,
        });
    }

    /// S or V at the turns of the timer: whole milliseconds, its limits, and the limit of both.
    fn random_smoothed(&mut self) -> u64 {
        match self.random.below(8) {
            0 => self.random.pick(&[0, 1, MAX_SMOOTHED - 1, MAX_SMOOTHED]),
            1 => self
                .random
                .pick(&[MAX_SMOOTHED + 1, 1 << 32, u64::MAX - 1, u64::MAX]),
            2 => self.random.next_u64(),
            3 => {
                let whole = 256 * (4 + self.random.below(60_500));
                whole - ROUNDING_ALLOWANCE + 1 - self.random.below(3)
            }
            4 => 256 * 1_000 - self.random.below(1_500),
            5 => 256 * 60_000 - self.random.below(1_500),
            _ => self.random.below(256 * u64::from(MAX_SAMPLE)),
        }
    }
}

/// How many octets bring what is outstanding to a place where N turns, or one past it; none where it is past that place.
fn to_a_turn_of_n(random: &mut Random, connection: &Connection) -> u32 {
    let octets_per_ack = 2 * u32::from(connection.mss.max(LEAST_MSS));
    let turn = octets_per_ack * random.below_u32(MAX_EXPECTED + 1);
    let target = turn + random.below_u32(2);
    target.saturating_sub(connection.outstanding())
}

#[cfg(test)]
mod tests {
    use super::*;
    use crate::count::Counts;
    use crate::play::play;

    fn random_script(seed: u64, calls: usize) -> Vec<u8> {
        let mut generator = Generator::new(Random::new(seed), false);
        for _ in 0..calls {
            generator.add_call();
        }
        generator.into_script()
    }

    #[test]
    fn a_seed_decides_the_script() {
        assert_eq!(random_script(1, 200), random_script(1, 200));
        assert_ne!(random_script(1, 200), random_script(2, 200));
    }

    #[test]
    fn a_cut_call_makes_the_last_line_bad() {
        let mut generator = Generator::new(Random::new(3), false);
        generator.add_call();
        generator.add_cut_call();
        assert!(play(&generator.into_script()).ends_with("bad\n"));
    }

    #[test]
    fn every_number_but_the_longest_segments_is_reached() {
        let counts = Counts::of(&random_script(5, 40_000));
        let missing = counts.never_reached();
        assert!(
            missing.iter().all(|&(_, number)| number == 2),
            "{:?}",
            missing
        );
    }

    #[test]
    fn takes_stay_the_most_and_acks_too_old_come_up() {
        let counts = Counts::of(&random_script(8, 40_000));
        let arrivals: u64 = (0..=31).map(|number| counts.count("arrive", number)).sum();
        let share = |number| 100 * counts.count("arrive", number) / arrivals;
        assert!(share(0) >= 45, "{}", share(0));
        assert!((1..5).contains(&share(31)), "{}", share(31));
    }

    #[test]
    fn takes_feed_samples_with_every_n() {
        let counts = Counts::of(&random_script(9, 40_000));
        for expected in 1..=MAX_EXPECTED {
            let fed = counts.fed(expected);
            assert!(fed >= 5, "{} {}", expected, fed);
        }
        assert!(counts.refused_for_n() >= 100);
    }

    #[test]
    fn the_profile_opens_records_that_live_on_and_refuses_for_each_lack() {
        let counts = Counts::of(&random_script(10, 40_000));
        for number in [0, 9, 10, 11] {
            let given = counts.count("profile", number);
            assert!(given >= 30, "{} {}", number, given);
        }
        for lack in 1..=3 {
            let told = counts.lack(lack);
            assert!(told >= 60, "{} {}", lack, told);
        }
        // So many takes for each record.
        assert!(counts.taken_under_profile() >= 10 * counts.count("profile", 0));
    }

    #[test]
    fn places_counts_and_steps_go_far() {
        // With fewer calls it hangs on the seed whether openings get there.
        let counts = Counts::of(&random_script(6, 320_000));
        for name in ["read", "open", "arrive", "profile"] {
            let most = |number| counts.span(name, number).map_or(0, |(_, most)| most);
            assert!(most(0) >= 10, "{} {}", name, most(0));
            for number in 4..=6 {
                assert!(most(number) >= 40, "{} {} {}", name, number, most(number));
            }
        }
        for (number, far) in [(0, 40), (4, 35), (5, 25), (6, 25)] {
            let most = counts.steps(number).last();
            assert!(most >= Some(far), "{} {:?}", number, most);
        }
    }
}
