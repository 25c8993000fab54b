//! The retransmission timer of RFC 6298 in units of 1/256 ms, with the weights of RFC 7323 Appendix G.

use crate::refusal::Refusal;

/// The longest round-trip sample in ms that is not refused.
pub const MAX_SAMPLE: u32 = 600_000;
/// The largest S or V that samples can give.
pub const MAX_SMOOTHED: u64 = 256 * MAX_SAMPLE as u64;
pub const MIN_RTO: u32 = 1_000;
pub const MAX_RTO: u32 = 60_000;

/// The largest N, which weighs a sample least.
pub const MAX_EXPECTED: u32 = 16;
/// A smaller MSS counts as this one.
pub const LEAST_MSS: u16 = 64;
/// Added before rounding up, so that rounding S and V down never makes the timer early.
pub const ROUNDING_ALLOWANCE: u64 = 887;

const UNITS_PER_MS: u64 = 256;

/// A round-trip sample.
#[derive(Clone, Copy, Debug, PartialEq, Eq)]
pub struct Sample {
    /// R, in ms.
    pub round_trip: u32,
    /// N, ExpectedSamples of RFC 7323: how many samples a round trip is expected to give.
    pub expected: u32,
}

impl Sample {
    pub const fn new(round_trip: u32, expected: u32) -> Sample {
        Sample {
            round_trip,
            expected,
        }
    }

    pub fn is_allowed(self) -> bool {
        self.round_trip <= MAX_SAMPLE && (1..=MAX_EXPECTED).contains(&self.expected)
    }
}

/// N from the octets outstanding before an ACK and the peer's MSS.
pub fn expected_samples(outstanding: u32, mss: u16) -> u32 {
    // Delayed ACKs come for every second segment.
    let octets_per_ack = 2 * u64::from(mss.max(LEAST_MSS));
    let acks = (u64::from(outstanding) + octets_per_ack - 1) / octets_per_ack;
    acks.clamp(1, u64::from(MAX_EXPECTED)) as u32
}

/// The timer: smoothed round-trip time S, its variation V, and the RTO in ms.
#[derive(Clone, Copy, Debug, PartialEq, Eq)]
pub struct Timer {
    pub sampled: bool,
    pub smoothed: u64,
    pub variation: u64,
    pub rto: u32,
}

impl Default for Timer {
    fn default() -> Timer {
        Timer {
            sampled: false,
            smoothed: 0,
            variation: 0,
            rto: MIN_RTO,
        }
    }
}

impl Timer {
    /// Takes in a round-trip sample. The first one counts whole, whatever its N.
    pub fn sample(&mut self, sample: Sample) -> Result<(), Refusal> {
        if !sample.is_allowed() {
            return Err(Refusal::Sample);
        }
        let units = UNITS_PER_MS * u64::from(sample.round_trip);
        if self.sampled {
            let expected = u64::from(sample.expected);
            let error = self.smoothed.abs_diff(units);
            // V is worked from the old S, so it comes first.
            self.variation = weighed(self.variation, error, 4 * expected);
            self.smoothed = weighed(self.smoothed, units, 8 * expected);
        } else {
            self.sampled = true;
            self.smoothed = units;
            self.variation = units / 2;
        }
        self.rto = rto(self.smoothed, self.variation);
        Ok(())
    }

    /// Doubles the RTO after an expiry.
    pub fn expire(&mut self) {
        self.rto = (2 * self.rto).min(MAX_RTO);
    }
}

/// The mean of the old value and the new one, which has a weight of 1 in `parts`; rounded down.
fn weighed(old: u64, new: u64, parts: u64) -> u64 {
    ((parts - 1) * old + new) / parts
}

fn rto(smoothed: u64, variation: u64) -> u32 {
    let units = smoothed + UNITS_PER_MS.max(4 * variation) + ROUNDING_ALLOWANCE;
    let milliseconds = (units + UNITS_PER_MS - 1) / UNITS_PER_MS;
    milliseconds.clamp(u64::from(MIN_RTO), u64::from(MAX_RTO)) as u32
}

/// The RTO in ms from S and V, 0 where either is above what samples can give.
pub fn milliseconds(smoothed: u64, variation: u64) -> u32 {
    if smoothed > MAX_SMOOTHED || variation > MAX_SMOOTHED {
        return 0;
    }
    rto(smoothed, variation)
}

#[cfg(test)]
mod tests {
    use super::*;

    /// S, V and the RTO after samples that are not refused.
    fn after(samples: &[(u32, u32)]) -> (u64, u64, u32) {
        let mut timer = Timer::default();
        for &(round_trip, expected) in samples {
            assert_eq!(timer.sample(Sample::new(round_trip, expected)), Ok(()));
        }
        (timer.smoothed, timer.variation, timer.rto)
    }

    #[test]
    fn n_by_outstanding_octets_and_mss() {
        let cases = [
            // An MSS below 64 counts as 64.
            (0, [(128, 1), (129, 2), (1_920, 15), (1_921, 16)]),
            (63, [(128, 1), (129, 2), (1_920, 15), (1_921, 16)]),
            (64, [(128, 1), (129, 2), (1_920, 15), (1_921, 16)]),
            (65, [(130, 1), (131, 2), (1_950, 15), (1_951, 16)]),
            (536, [(1_072, 1), (1_073, 2), (16_080, 15), (16_081, 16)]),
            (
                65_535,
                [(131_070, 1), (131_071, 2), (1_966_050, 15), (1_966_051, 16)],
            ),
        ];
        for (mss, turns) in cases {
            let sixteen_times = 16 * turns[0].0;
            let ends = [
                (0, 1),
                (1, 1),
                (sixteen_times, 16),
                (sixteen_times + 1, 16),
                (u32::MAX, 16),
            ];
            for (outstanding, expected) in turns.into_iter().chain(ends) {
                assert_eq!(
                    expected_samples(outstanding, mss),
                    expected,
                    "{} {}",
                    outstanding,
                    mss
                );
            }
        }
    }

    #[test]
    fn n_takes_every_value() {
        for expected in 2..=16 {
            let turn = 2 * 1_460 * (expected - 1);
            assert_eq!(expected_samples(turn, 1_460), expected - 1);
            assert_eq!(expected_samples(turn + 1, 1_460), expected);
        }
    }

    #[test]
    fn m11_and_m12() {
        assert_eq!(after(&[(1_000, 1)]), (256_000, 128_000, 3_004));
        assert_eq!(after(&[(1_000, 1), (1_001, 1)]), (256_032, 96_064, 2_505));
    }

    #[test]
    fn weights_go_by_n() {
        // After a first sample of 1,000 ms one of 1,101: 256 x 101 = 25,856 above S.
        let cases = [
            // S = (7 x 256,000 + 281,856)/8, V = (3 x 128,000 + 25,856)/4.
            (1, (259_232, 102_464, 2_618)),
            // S = 256,000 + 25,856/16, V = 128,000 - 102,144/8.
            (2, (257_616, 115_232, 2_811)),
            // S = 256,000 + 25,856/24 = 257,077.33, V = 128,000 - 102,144/12.
            (3, (257_077, 119_488, 2_875)),
            // S = 256,000 + 25,856/128, V = 128,000 - 102,144/64.
            (16, (256_202, 126_404, 2_980)),
        ];
        for (expected, timer) in cases {
            assert_eq!(after(&[(1_000, 1), (1_101, expected)]), timer);
        }
    }

    #[test]
    fn both_are_rounded_down_with_the_old_s() {
        // S = 256,000 - 255,744/24 = 245,344, V = 128,000 + 127,744/12 = 138,645.33.
        let second = (245_344, 138_645, 3_129);
        assert_eq!(after(&[(1_000, 7), (1, 3)]), second);
        // S = 245,344 - 244,832/128 = 243,431.25, V = 138,645 + 106,187/64 = 140,304.17.
        let third = (243_431, 140_304, 3_147);
        assert_eq!(after(&[(1_000, 7), (1, 3), (2, 16)]), third);
    }

    #[test]
    fn the_first_sample_counts_whole() {
        for expected in [1, 2, 15, 16] {
            assert_eq!(after(&[(1_000, expected)]), (256_000, 128_000, 3_004));
        }
    }

    #[test]
    fn the_least_rto() {
        // 768 x 332 + 887 = 255,863 and 768 x 333 + 887 = 256,631; 1,000 ms are 256,000.
        for (round_trip, rto) in [(0, 1_000), (332, 1_000), (333, 1_003)] {
            assert_eq!(after(&[(round_trip, 1)]).2, rto);
        }
    }

    #[test]
    fn a_refused_sample_leaves_the_timer() {
        let mut fresh = Timer::default();
        fresh.expire();
        let mut sampled = Timer::default();
        sampled.sample(Sample::new(1_000, 1)).unwrap();
        let refused = [
            (600_001, 1),
            (u32::MAX, 16),
            (1_000, 0),
            (1_000, 17),
            (1_000, u32::MAX),
            (600_001, 0),
            (600_001, 17),
        ];
        for timer in [fresh, sampled] {
            for (round_trip, expected) in refused {
                let mut refusing = timer;
                assert_eq!(
                    refusing.sample(Sample::new(round_trip, expected)),
                    Err(Refusal::Sample)
                );
                assert_eq!(refusing, timer);
            }
            for (round_trip, expected) in [(600_000, 1), (600_000, 16), (0, 1), (0, 16)] {
                let mut taking = timer;
                assert_eq!(taking.sample(Sample::new(round_trip, expected)), Ok(()));
            }
        }
        assert_eq!(after(&[(600_000, 16)]), (153_600_000, 76_800_000, 60_000));
    }

    #[test]
    fn expiry_doubles_up_to_the_limit() {
        let mut timer = Timer::default();
        let after_each: Vec<u32> = (0..7)
            .map(|_| {
                timer.expire();
                timer.rto
            })
            .collect();
        assert_eq!(
            after_each,
            [2_000, 4_000, 8_000, 16_000, 32_000, 60_000, 60_000]
        );
        assert!(!timer.sampled);
    }

    #[test]
    fn milliseconds_at_the_limits() {
        let cases = [
            ((153_600_000, 153_600_000), 60_000),
            ((153_600_001, 0), 0),
            ((0, 153_600_001), 0),
            ((u64::MAX, u64::MAX), 0),
            ((0, 0), 1_000),
            ((256_000 - 256 - 887, 0), 1_000),
            ((256_000 - 256 - 886, 0), 1_001),
            ((256_000 - 256 - 887, 64), 1_000),
            ((256_000 - 256 - 887, 65), 1_001),
            ((256_256 - 256 - 887, 0), 1_001),
            ((256_256 - 256 - 886, 0), 1_002),
            ((15_360_000 - 256 - 887, 0), 60_000),
            ((15_359_744 - 256 - 887, 0), 59_999),
            ((15_359_744 - 256 - 886, 0), 60_000),
        ];
        for ((smoothed, variation), expected) in cases {
            assert_eq!(
                milliseconds(smoothed, variation),
                expected,
                "{} {}",
                smoothed,
                variation
            );
        }
    }
}
