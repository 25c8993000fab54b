//! Long random lists of samples and expiries, with the timer checked against the exact value after each.

use std::fmt::{self, Display};
use std::io;
use std::path::Path;

use crate::compare::written_by;
use crate::exact::{ExactTimer, Lateness, Violation, LATENESS_LIMIT, LATENESS_SCALE};
use crate::random::Random;
use crate::script::Call;
use crate::timer::Timer;
use crate::timer_list::{RandomList, TimerCall};

const LONGEST_LIST: u64 = 3_000;

/// What the lists showed.
#[derive(Clone, Copy, Debug, Default, PartialEq, Eq)]
pub struct Summary {
    pub calls: u64,
    pub checked: u64,
    pub overall: Extremes,
    /// Only where the exact value stood at neither limit.
    pub between_limits: Extremes,
}

/// The least and the greatest lateness seen, in thousandths of 1/256 ms, rounded down.
#[derive(Clone, Copy, Debug, Default, PartialEq, Eq)]
pub struct Extremes(Option<(u64, u64)>);

impl Summary {
    fn note(&mut self, lateness: Lateness) {
        self.checked += 1;
        self.overall.note(lateness.thousandths);
        if !lateness.at_limit {
            self.between_limits.note(lateness.thousandths);
        }
    }
}

impl Extremes {
    fn note(&mut self, seen: u64) {
        let (least, greatest) = self.0.unwrap_or((seen, seen));
        self.0 = Some((least.min(seen), greatest.max(seen)));
    }
}

impl Display for Summary {
    fn fmt(&self, f: &mut fmt::Formatter) -> fmt::Result {
        writeln!(f, "timer: {} calls, {} checked", self.calls, self.checked)?;
        writeln!(
            f,
            "lateness in 1/256 ms, limit {}: {}",
            LATENESS_LIMIT, self.overall
        )?;
        writeln!(f, "away from 1,000 and 60,000 ms: {}", self.between_limits)
    }
}

impl Display for Extremes {
    fn fmt(&self, f: &mut fmt::Formatter) -> fmt::Result {
        match self.0 {
            Some((least, greatest)) => write!(f, "{} to {}", Decimal(least), Decimal(greatest)),
            None => f.write_str("none seen"),
        }
    }
}

/// A lateness as a decimal number.
struct Decimal(u64);

impl Display for Decimal {
    fn fmt(&self, f: &mut fmt::Formatter) -> fmt::Result {
        write!(
            f,
            "{}.{:03}",
            self.0 / LATENESS_SCALE,
            self.0 % LATENESS_SCALE
        )
    }
}

/// A list at whose end the timer broke its bounds.
#[derive(Clone, Debug, PartialEq, Eq)]
pub struct Failure {
    pub calls: Vec<TimerCall>,
    pub rto: u32,
    pub violation: Violation,
}

impl Display for Failure {
    fn fmt(&self, f: &mut fmt::Formatter) -> fmt::Result {
        let kind = match self.violation {
            Violation::Early => "early",
            Violation::Late => "late",
        };
        writeln!(f, "timer: {} at {} ms after these calls:", kind, self.rto)?;
        self.calls
            .iter()
            .try_for_each(|call| writeln!(f, "{}", call))
    }
}

/// Makes so many random calls, in lists that each begin with a new timer, and judges what `rtos` says that
/// the timer stands at after each call of a list.
pub fn run(
    calls: u64,
    seed: u64,
    rtos: impl Fn(&[TimerCall]) -> io::Result<Vec<u32>>,
) -> io::Result<Result<Summary, Failure>> {
    let mut random = Random::new(seed);
    let mut summary = Summary::default();
    while summary.calls < calls {
        let left = calls - summary.calls;
        let length = (1 + random.below(LONGEST_LIST)).min(left);
        let list = RandomList::new(&mut random).take(length);
        let rtos = rtos(&list)?;
        if let Err(failure) = check_list(&list, &rtos, LATENESS_LIMIT, &mut summary) {
            return Ok(Err(failure));
        }
    }
    Ok(Ok(summary))
}

/// Where our own timer stands after each call of a list.
pub fn own_rtos(list: &[TimerCall]) -> Vec<u32> {
    rtos_by(list, TimerCall::apply)
}

/// Where another program's timer stands after each call of a list.
pub fn rtos_of_program(program: &Path, list: &[TimerCall]) -> io::Result<Vec<u32>> {
    let mut script = Vec::new();
    Call::Timer.encode(&mut script);
    for call in list {
        call.scripted().encode(&mut script);
    }
    let written = written_by(program, &script)?;
    let rtos = rtos_written(&String::from_utf8_lossy(&written));
    if rtos.len() != list.len() + 1 {
        return Err(io::Error::new(
            io::ErrorKind::InvalidData,
            "it did not write a timer line for each call",
        ));
    }
    // The first line is that of the new timer.
    Ok(rtos[1..].to_vec())
}

fn rtos_by(list: &[TimerCall], apply: impl Fn(TimerCall, &mut Timer)) -> Vec<u32> {
    let mut timer = Timer::default();
    let after = |&call: &TimerCall| {
        apply(call, &mut timer);
        timer.rto
    };
    list.iter().map(after).collect()
}

/// The last field of each timer line.
fn rtos_written(lines: &str) -> Vec<u32> {
    let rto = |line: &str| {
        line.strip_prefix("timer-state ")?
            .rsplit(' ')
            .next()?
            .parse()
            .ok()
    };
    lines.lines().filter_map(rto).collect()
}

/// Checks the timer after every call of a list where the claim holds: some sample was not refused, and no
/// expiry came after the last such sample.
fn check_list(
    list: &[TimerCall],
    rtos: &[u32],
    limit: u64,
    summary: &mut Summary,
) -> Result<(), Failure> {
    let mut exact = ExactTimer::default();
    let mut expired = false;
    for (at, (&call, &rto)) in list.iter().zip(rtos).enumerate() {
        match call {
            TimerCall::Expiry => expired = true,
            TimerCall::Sample(sample) if sample.is_allowed() => {
                exact.sample(sample);
                expired = false;
            }
            TimerCall::Sample(_) => {}
        }
        summary.calls += 1;
        match exact.judge(rto, limit) {
            Some(Ok(lateness)) if !expired => summary.note(lateness),
            Some(Err(violation)) if !expired => {
                return Err(Failure {
                    calls: list[..=at].to_vec(),
                    rto,
                    violation,
                });
            }
            _ => {}
        }
    }
    Ok(())
}

#[cfg(test)]
mod tests {
    use super::*;
    use crate::timer::Sample;

    fn check(
        list: &[TimerCall],
        apply: impl Fn(TimerCall, &mut Timer),
        limit: u64,
    ) -> Result<Summary, Failure> {
        let mut summary = Summary::default();
        check_list(list, &rtos_by(list, apply), limit, &mut summary)?;
        Ok(summary)
    }

    const fn sample(round_trip: u32, expected: u32) -> TimerCall {
        TimerCall::Sample(Sample::new(round_trip, expected))
    }

    const LIST: [TimerCall; 7] = [
        sample(600_001, 1),
        sample(1_000, 5),
        sample(1_001, 2),
        TimerCall::Expiry,
        sample(600_001, 1),
        sample(1_000, 17),
        sample(1_000, 3),
    ];

    #[test]
    fn the_claim_is_checked_where_it_applies() {
        let summary = check(&LIST, TimerCall::apply, LATENESS_LIMIT).unwrap();
        assert_eq!((summary.calls, summary.checked), (7, 3));
        // The exact values are 768,000, 704,144 and 666,804.67/256 ms, and the timer stands at 3,004, 2,755 and 2,609.
        assert_eq!(summary.overall, Extremes(Some((1_024_000, 1_136_000))));
    }

    #[test]
    fn a_margin_of_zero_fails() {
        let failure = check(&LIST, TimerCall::apply, 0).unwrap_err();
        assert_eq!(
            (failure.calls.len(), failure.violation),
            (2, Violation::Late)
        );
    }

    #[test]
    fn a_timer_that_ignores_later_samples_fails() {
        let frozen = |call: TimerCall, timer: &mut Timer| {
            if !timer.sampled {
                call.apply(timer);
            }
        };
        let failure = check(&LIST, frozen, LATENESS_LIMIT).unwrap_err();
        assert_eq!(
            (failure.calls.len(), failure.violation),
            (3, Violation::Late)
        );
    }

    #[test]
    fn random_lists_hold() {
        let summary = run(5_000, 1, |list| Ok(own_rtos(list))).unwrap().unwrap();
        assert_eq!(summary.calls, 5_000);
        assert!(summary.checked > 3_000);
    }

    /// Samples from 10,000 ms on: so many that change by so many ms each, with this N.
    fn changing(parts: &[(usize, i32, u32)]) -> Vec<TimerCall> {
        let mut round_trip = 10_000;
        let mut list = Vec::new();
        for &(count, change, expected) in parts {
            for _ in 0..count {
                round_trip += change;
                list.push(sample(round_trip as u32, expected));
            }
        }
        list
    }

    /// S and V lose by rounding almost as much as they can.
    fn falling() -> Vec<TimerCall> {
        changing(&[
            (64, 0, 1),
            (84, -2, 16),
            (2_500, -1, 16),
            (1, 63, 16),
            (1, -164, 16),
        ])
    }

    /// S loses almost as much as it can, and V is above the exact one by that.
    fn rising() -> Vec<TimerCall> {
        changing(&[
            (64, 0, 1),
            (94, 2, 16),
            (1_400, 1, 16),
            (1, 107, 16),
            (1, 32, 1),
        ])
    }

    #[test]
    fn lists_come_close_to_both_sides() {
        let extremes = |list: &[TimerCall]| {
            let summary = check(list, TimerCall::apply, LATENESS_LIMIT).unwrap();
            summary.between_limits.0.unwrap()
        };
        assert_eq!(extremes(&falling()).0, 0);
        assert!(extremes(&rising()).1 >= 1_538_000);
    }

    #[test]
    fn a_timer_with_too_small_an_allowance_fails() {
        for allowance in [0, 47, 886] {
            let allowing = |call: TimerCall, timer: &mut Timer| {
                call.apply(timer);
                let units = timer.smoothed + (4 * timer.variation).max(256) + allowance;
                timer.rto = (((units + 255) / 256) as u32).clamp(1_000, 60_000);
            };
            let failure = check(&falling(), allowing, LATENESS_LIMIT).unwrap_err();
            assert_eq!(failure.violation, Violation::Early);
        }
    }

    #[test]
    fn the_last_field_of_a_timer_line_is_its_rto() {
        let lines = "timer\ntimer-state 0 0 0 1000\nexpiry\ntimer-state 0 0 0 2000\nbad\n";
        assert_eq!(rtos_written(lines), [1_000, 2_000]);
    }

    #[test]
    fn a_program_that_writes_no_timer_lines_is_an_error() {
        assert!(rtos_of_program(Path::new("true"), &LIST).is_err());
    }
}
