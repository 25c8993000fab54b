//! Random lists of samples and expiries for a timer, in various styles.

use std::fmt::{self, Display};

use crate::random::Random;
use crate::script::Call;
use crate::timer::{Sample, Timer, MAX_EXPECTED, MAX_SAMPLE};

mod drift;

use self::drift::{Drift, Run};

/// One call that moves a timer.
#[derive(Clone, Copy, Debug, PartialEq, Eq)]
pub enum TimerCall {
    Sample(Sample),
    Expiry,
}

impl TimerCall {
    pub fn apply(self, timer: &mut Timer) {
        match self {
            TimerCall::Sample(sample) => {
                // A refused sample leaves the timer.
                let _ = timer.sample(sample);
            }
            TimerCall::Expiry => timer.expire(),
        }
    }

    /// The call as a script has it, of the timer that stands by itself.
    pub fn scripted(self) -> Call<'static> {
        match self {
            TimerCall::Sample(sample) => Call::Sample(sample),
            TimerCall::Expiry => Call::Expiry,
        }
    }
}

impl Display for TimerCall {
    fn fmt(&self, f: &mut fmt::Formatter) -> fmt::Result {
        match self {
            TimerCall::Sample(sample) => {
                write!(f, "sample {} N {}", sample.round_trip, sample.expected)
            }
            TimerCall::Expiry => f.write_str("expiry"),
        }
    }
}

/// How the samples of a list move.
#[derive(Clone, Copy)]
enum Style {
    Constant,
    Drifting,
    Alternating,
    Uniform,
    Small,
    NearLimit,
    Mixed,
    Steady(Drift),
}

const STYLES: [Style; 9] = [
    Style::Constant,
    Style::Drifting,
    Style::Alternating,
    Style::Uniform,
    Style::Small,
    Style::NearLimit,
    Style::Mixed,
    Style::Steady(Drift::Falling),
    Style::Steady(Drift::Rising),
];

/// How N moves in a list.
#[derive(Clone, Copy)]
enum Weights {
    Same(u32),
    /// The largest but for one in a hundred.
    Largest,
    Any,
}

/// A random list in the making.
pub struct RandomList<'a> {
    random: &'a mut Random,
    style: Style,
    weights: Weights,
    /// The share of refused samples and of expiries, in percent.
    refused: u64,
    expiries: u64,
    base: u32,
    step: u32,
    run: Run,
}

impl<'a> RandomList<'a> {
    pub fn new(random: &'a mut Random) -> RandomList<'a> {
        let style = random.pick(&STYLES);
        RandomList {
            style,
            weights: random_weights(random, style),
            refused: random.pick(&[0, 0, 2, 10]),
            expiries: random.pick(&[0, 0, 1, 10]),
            base: any_sample(random),
            step: random.pick(&[1, 3, 50, 2_000]),
            run: Run::new(random),
            random,
        }
    }

    /// The first calls of the list.
    pub fn take(mut self, length: u64) -> Vec<TimerCall> {
        (0..length).map(|at| self.next_call(at)).collect()
    }

    fn next_call(&mut self, at: u64) -> TimerCall {
        if self.random.percent(self.expiries) {
            TimerCall::Expiry
        } else if self.random.percent(self.refused) {
            TimerCall::Sample(refused_sample(self.random))
        } else {
            TimerCall::Sample(self.next_sample(at))
        }
    }

    fn next_sample(&mut self, at: u64) -> Sample {
        let expected = self.next_expected();
        let round_trip = match self.style {
            Style::Constant => self.base,
            Style::Drifting => {
                self.base = drifted(self.random, self.base, self.step);
                self.base
            }
            Style::Alternating if at % 2 == 0 => self.base,
            Style::Alternating => MAX_SAMPLE - self.base,
            Style::Uniform => self.random.below_u32(self.base + 1),
            Style::Small => self.random.below_u32(2_000),
            Style::NearLimit => MAX_SAMPLE - self.random.below_u32(self.step),
            Style::Mixed => any_sample(self.random),
            Style::Steady(drift) => return self.run.next(self.random, drift, expected),
        };
        Sample::new(round_trip, expected)
    }

    fn next_expected(&mut self) -> u32 {
        match self.weights {
            Weights::Same(expected) => expected,
            Weights::Largest if !self.random.one_in(100) => MAX_EXPECTED,
            _ => any_expected(self.random),
        }
    }
}

fn random_weights(random: &mut Random, style: Style) -> Weights {
    // An even drift leads closest to a bound with the largest N.
    if matches!(style, Style::Steady(_)) && random.percent(75) {
        return Weights::Same(MAX_EXPECTED);
    }
    let same = any_expected(random);
    random.pick(&[
        Weights::Same(same),
        Weights::Same(MAX_EXPECTED),
        Weights::Largest,
        Weights::Any,
    ])
}

fn any_sample(random: &mut Random) -> u32 {
    let bound = random.pick(&[10, 1_000, 20_000, 60_000, MAX_SAMPLE + 1]);
    random.below_u32(bound)
}

fn any_expected(random: &mut Random) -> u32 {
    1 + random.below_u32(MAX_EXPECTED)
}

fn drifted(random: &mut Random, sample: u32, step: u32) -> u32 {
    let moved = i64::from(sample) + i64::from(random.below_u32(2 * step + 1)) - i64::from(step);
    moved.clamp(0, i64::from(MAX_SAMPLE)) as u32
}

/// A sample that is refused for its R, for its N, or for both.
fn refused_sample(random: &mut Random) -> Sample {
    let (good, long) = (any_sample(random), too_long(random));
    let (allowed, outside) = (any_expected(random), outside_expected(random));
    let (round_trip, expected) = random.pick(&[(long, allowed), (good, outside), (long, outside)]);
    Sample::new(round_trip, expected)
}

fn too_long(random: &mut Random) -> u32 {
    above(random, MAX_SAMPLE)
}

/// An N outside 1 to 16.
fn outside_expected(random: &mut Random) -> u32 {
    let more = above(random, MAX_EXPECTED);
    random.pick(&[0, more])
}

/// A number above the limit: the next one, any, or the largest.
fn above(random: &mut Random, limit: u32) -> u32 {
    let next = limit + 1;
    let beyond = next + random.below_u32(u32::MAX - next);
    random.pick(&[next, beyond, u32::MAX])
}

#[cfg(test)]
mod tests {
    use super::*;

    #[test]
    fn refused_samples_are_refused_for_r_or_n_or_both() {
        let mut random = Random::new(1);
        let mut seen = [0; 3];
        for _ in 0..300 {
            let sample = refused_sample(&mut random);
            let for_r = sample.round_trip > MAX_SAMPLE;
            let for_n = sample.expected == 0 || sample.expected > MAX_EXPECTED;
            match (for_r, for_n) {
                (true, false) => seen[0] += 1,
                (false, true) => seen[1] += 1,
                (true, true) => seen[2] += 1,
                (false, false) => panic!("{:?}", sample),
            }
        }
        assert!(seen.iter().all(|&count| count >= 50), "{:?}", seen);
    }
}
