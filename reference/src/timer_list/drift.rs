//! Samples that fall or rise evenly: S and V then settle where rounding them down takes a timer close to a side of its bounds.

use crate::random::Random;
use crate::timer::Sample;

/// So many equal samples with N = 1 bring V to 0.
const STILL: u32 = 64;
/// After about so many samples that change by 1 ms, S and V have lost almost as much as they can.
const SLOW: u32 = 1_200;
const SLOW_SPAN: u32 = 800;
/// How far from the even samples the last ones of a run lie, in ms.
const LAST_SPAN: u32 = 140;

/// A way to a side of the bounds; the largest N leads closest.
#[derive(Clone, Copy, Debug, PartialEq, Eq)]
pub enum Drift {
    /// To the exact value: S and V lose most, and V also what S lost.
    Falling,
    /// To the limit of lateness: S loses most and V nothing, but V gains what S lost.
    Rising,
}

impl Drift {
    fn sign(self) -> i32 {
        match self {
            Drift::Falling => -1,
            Drift::Rising => 1,
        }
    }

    /// After so many samples that change by 2 ms, S and V settle from below in a fall and from above in a rise.
    fn fast(self) -> u32 {
        match self {
            Drift::Falling => 84,
            Drift::Rising => 94,
        }
    }

    /// Two last samples in ms from the even ones, and their N: in a fall an allowance of one less is then too small, and in a
    /// rise rounding up adds most.
    fn last(self) -> [(i32, u32); 2] {
        match self {
            Drift::Falling => [(63, 16), (-101, 16)],
            Drift::Rising => [(107, 16), (139, 1)],
        }
    }
}

/// Samples that drift; after its last ones a run starts anew.
#[derive(Clone, Copy, Debug, PartialEq, Eq)]
pub struct Run {
    round_trip: i32,
    slow: u32,
    made: u32,
}

impl Run {
    /// Starts where thousands of samples stay between the limits of the timer.
    pub fn new(random: &mut Random) -> Run {
        Run {
            round_trip: 8_000 + random.below_u32(8_000) as i32,
            slow: SLOW + random.below_u32(SLOW_SPAN),
            made: 0,
        }
    }

    pub fn next(&mut self, random: &mut Random, drift: Drift, expected: u32) -> Sample {
        let fast_from = STILL;
        let slow_from = fast_from + drift.fast();
        let last_from = slow_from + self.slow;
        let made = self.made;
        self.made += 1;
        if made >= last_from {
            return self.last(random, drift, (made - last_from) as usize);
        }
        if made < fast_from {
            return sample(self.round_trip, 1);
        }
        let step = if made < slow_from { 2 } else { 1 };
        self.round_trip += step * drift.sign();
        sample(self.round_trip, expected)
    }

    /// One of the last samples, or another one around it.
    fn last(&mut self, random: &mut Random, drift: Drift, at: usize) -> Sample {
        let last = drift.last();
        if at + 1 == last.len() {
            self.made = 0;
        }
        let (given, expected) = last[at];
        let other = drift.sign() * random.below_u32(LAST_SPAN) as i32;
        let away = if random.one_in(4) { other } else { given };
        sample(self.round_trip + away, expected)
    }
}

fn sample(round_trip: i32, expected: u32) -> Sample {
    Sample::new(round_trip.max(0) as u32, expected)
}
