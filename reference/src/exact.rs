//! The exact RTO of RFC 6298 with the weights of RFC 7323 Appendix G, in fractions that are never rounded, and the check of a
//! timer against it.

use crate::natural::Natural;
use crate::timer::{Sample, MAX_RTO, MIN_RTO};

/// A timer may be later than the exact value by less than this many 1/256 ms.
pub const LATENESS_LIMIT: u64 = 1_650;

/// Lateness is reported in thousandths of 1/256 ms.
pub const LATENESS_SCALE: u64 = 1_000;

const UNITS_PER_MS: u64 = 256;
const LEAST: u64 = UNITS_PER_MS * MIN_RTO as u64;
const GREATEST: u64 = UNITS_PER_MS * MAX_RTO as u64;

/// S and V in 1/256 ms, as numerators over one denominator: 8^(n-1) after n samples, times the N of each but the first.
#[derive(Clone, Debug, PartialEq, Eq)]
struct Estimate {
    smoothed: Natural,
    variation: Natural,
    denominator: Natural,
}

/// The exact timer, worked from the samples alone.
#[derive(Clone, Debug, Default)]
pub struct ExactTimer {
    estimate: Option<Estimate>,
}

/// How late a timer within its bounds is.
#[derive(Clone, Copy, Debug, PartialEq, Eq)]
pub struct Lateness {
    /// In thousandths of 1/256 ms, rounded down.
    pub thousandths: u64,
    /// Whether the exact value stands at the least or the greatest RTO.
    pub at_limit: bool,
}

/// How a timer breaks its bounds.
#[derive(Clone, Copy, Debug, PartialEq, Eq)]
pub enum Violation {
    Early,
    Late,
}

impl ExactTimer {
    /// Takes in a sample; one that is refused changes nothing.
    pub fn sample(&mut self, sample: Sample) {
        if !sample.is_allowed() {
            return;
        }
        let units = UNITS_PER_MS * u64::from(sample.round_trip);
        self.estimate = Some(match &self.estimate {
            None => Estimate::first(units),
            Some(estimate) => estimate.next(units, u64::from(sample.expected)),
        });
    }

    /// Judges an RTO in ms: not before the exact value, and later by less than `limit` in 1/256 ms.
    /// Before any sample there is nothing to judge by.
    pub fn judge(&self, rto: u32, limit: u64) -> Option<Result<Lateness, Violation>> {
        let estimate = self.estimate.as_ref()?;
        let exact = estimate.rto();
        let given = estimate.scaled(UNITS_PER_MS * u64::from(rto));
        if given < exact {
            return Some(Err(Violation::Early));
        }
        let lateness = given.difference(&exact);
        if lateness >= estimate.scaled(limit) {
            return Some(Err(Violation::Late));
        }
        let thousandths = lateness.times(LATENESS_SCALE);
        Some(Ok(Lateness {
            thousandths: thousandths.quotient(&estimate.denominator),
            at_limit: estimate.is_at_limit(&exact),
        }))
    }
}

impl Estimate {
    fn first(units: u64) -> Estimate {
        Estimate {
            smoothed: Natural::from(units),
            variation: Natural::from(units / 2),
            denominator: Natural::from(1),
        }
    }

    /// V = ((4N-1)V + |S - units|) / 4N and S = ((8N-1)S + units) / 8N, over a denominator 8N times as large.
    fn next(&self, units: u64, expected: u64) -> Estimate {
        let units = self.scaled(units);
        let error = self.smoothed.difference(&units);
        Estimate {
            smoothed: self.smoothed.times(8 * expected - 1).plus(&units),
            variation: self.variation.times(4 * expected - 1).plus(&error).times(2),
            denominator: self.denominator.times(8 * expected),
        }
    }

    /// A number of units over this estimate's denominator.
    fn scaled(&self, units: u64) -> Natural {
        self.denominator.times(units)
    }

    /// S + max(256, 4V), raised to the least or cut to the greatest RTO.
    fn rto(&self) -> Natural {
        let spread = self.variation.times(4).max(self.scaled(UNITS_PER_MS));
        let unlimited = self.smoothed.plus(&spread);
        unlimited.max(self.scaled(LEAST)).min(self.scaled(GREATEST))
    }

    fn is_at_limit(&self, rto: &Natural) -> bool {
        *rto == self.scaled(LEAST) || *rto == self.scaled(GREATEST)
    }
}

#[cfg(test)]
mod tests {
    use super::*;
    use crate::timer::Timer;

    /// The R and N of each.
    type Samples = [(u32, u32)];

    fn exact(samples: &Samples) -> ExactTimer {
        let mut exact = ExactTimer::default();
        for &(round_trip, expected) in samples {
            exact.sample(Sample::new(round_trip, expected));
        }
        exact
    }

    /// What a timer at this RTO is found to be after the samples.
    fn judged(samples: &Samples, rto: u32) -> Option<Result<Lateness, Violation>> {
        exact(samples).judge(rto, LATENESS_LIMIT)
    }

    fn late(thousandths: u64) -> Option<Result<Lateness, Violation>> {
        Some(Ok(Lateness {
            thousandths,
            at_limit: false,
        }))
    }

    const EARLY: Option<Result<Lateness, Violation>> = Some(Err(Violation::Early));
    const LATE: Option<Result<Lateness, Violation>> = Some(Err(Violation::Late));
    const AT_LIMIT: Option<Result<Lateness, Violation>> = Some(Ok(Lateness {
        thousandths: 0,
        at_limit: true,
    }));

    #[test]
    fn m11_is_late_by_the_rounding_alone() {
        // The exact value after a first sample of 1,000 ms is 3,000 ms, whatever its N; the timer stands at 3,004.
        for expected in [1, 2, 16] {
            let first = [(1_000, expected)];
            assert_eq!(judged(&first, 2_999), EARLY);
            assert_eq!(judged(&first, 3_000), late(0));
            assert_eq!(judged(&first, 3_004), late(1_024_000));
            assert_eq!(judged(&first, 3_006), late(1_536_000));
            assert_eq!(judged(&first, 3_007), LATE);
        }
    }

    #[test]
    fn m12_in_fractions() {
        // S = 256,032 and V = 96,064, both whole: 640,288/256 = 2,501.125 ms.
        let samples = [(1_000, 1), (1_001, 1)];
        assert_eq!(judged(&samples, 2_505), late(992_000));
        assert_eq!(judged(&samples, 2_501), EARLY);
    }

    #[test]
    fn the_limit_itself_is_late() {
        // 992/256 ms late.
        let exact = exact(&[(1_000, 1), (1_001, 1)]);
        assert_eq!(exact.judge(2_505, 992), LATE);
        assert_eq!(exact.judge(2_505, 993), late(992_000));
    }

    #[test]
    fn numerators_over_8_and_every_later_n() {
        let lists: [(&Samples, [u64; 3]); 4] = [
            (&[(1_000, 9)], [256_000, 128_000, 1]),
            // 15 x 256,000 + 256,256; (7 x 128,000 + 256) x 2.
            (&[(1_000, 9), (1_001, 2)], [4_096_256, 1_792_512, 16]),
            // 23 x 4,096,256 + 16 x 256,768; (11 x 1,792,512 + 12,032) x 2. The refused samples are not in it.
            (
                &[(1_000, 9), (600_001, 5), (1_001, 2), (7, 17), (1_003, 3)],
                [98_322_176, 39_459_328, 384],
            ),
            // 127 x 256,000; (63 x 128,000 + 256,000) x 2.
            (&[(1_000, 1), (0, 16)], [32_512_000, 16_640_000, 128]),
        ];
        for (samples, numbers) in lists {
            let [smoothed, variation, denominator] = numbers.map(Natural::from);
            let expected = Estimate {
                smoothed,
                variation,
                denominator,
            };
            assert_eq!(exact(samples).estimate, Some(expected));
        }
    }

    #[test]
    fn a_fraction_with_several_ns() {
        // 708,744 and 20/21 units; 2,769 ms are 708,864.
        let samples = [(1_000, 9), (1_001, 3), (1_002, 7)];
        assert_eq!(judged(&samples, 2_768), EARLY);
        assert_eq!(judged(&samples, 2_769), late(119_047));
    }

    #[test]
    fn limits_and_refused_samples() {
        for refused in [(600_001, 1), (1_000, 0), (1_000, 17), (1_000, u32::MAX)] {
            assert_eq!(judged(&[refused], 1_000), None);
            assert_eq!(judged(&[(0, 1), refused], 1_000), AT_LIMIT);
        }
        assert_eq!(judged(&[(600_000, 16)], 60_000), AT_LIMIT);
    }

    #[test]
    fn a_margin_of_zero_is_caught() {
        assert_eq!(exact(&[(1_000, 1)]).judge(3_001, 0), LATE);
    }

    #[test]
    fn a_timer_that_uses_only_its_first_sample_is_caught() {
        let mut frozen = Timer::default();
        frozen.sample(Sample::new(1_000, 1)).unwrap();
        for expected in [1, 16] {
            assert_eq!(judged(&[(1_000, 1), (1_000, expected)], frozen.rto), LATE);
            assert_eq!(judged(&[(1_000, 1), (9_000, expected)], frozen.rto), EARLY);
        }
    }

    #[test]
    fn a_timer_with_the_weights_of_n_1_is_caught() {
        let mut light = Timer::default();
        for round_trip in [1_000, 900] {
            light.sample(Sample::new(round_trip, 1)).unwrap();
        }
        for expected in [2, 16] {
            assert_eq!(judged(&[(1_000, 1), (900, expected)], light.rto), EARLY);
        }
    }

    #[test]
    fn fixed_timers_are_caught() {
        assert_eq!(judged(&[(1_000, 1)], 60_000), LATE);
        assert_eq!(judged(&[(1_000, 1)], 1_000), EARLY);
    }
}
